"""The kit's own tools, as a module of Python: the crates of a repository, and the words of calls."""
import importlib.machinery
import importlib.util
import os
import shutil
import sys


def tools_of_the_kit():
    found = os.path.join(os.path.dirname(os.path.realpath(shutil.which("rt") or "")), "rtlib.py")
    loader = importlib.machinery.SourceFileLoader("rtlib", found)
    made = importlib.util.module_from_spec(importlib.util.spec_from_loader("rtlib", loader))
    sys.modules["rtlib"] = made
    sys.dont_write_bytecode = True
    loader.exec_module(made)
    return made
