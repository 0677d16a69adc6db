"""The second model of a pair: tools/model.py says what it models."""
