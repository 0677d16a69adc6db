//! What the line discipline makes of bytes.

/// The line discipline: the unfinished line, the column, and room for what comes and what is made.
#[derive(Default)]
pub struct Line {
    pub typed: Vec<u8>,
    column: usize,
    pub scratch: [Vec<u8>; 2],
}

/// How many bytes stand in front of the first control character: eight at a time, of which those below 0x20 or equal to 0x7f leave their high bit.
pub fn plain(text: &[u8]) -> usize {
    const EACH: u64 = u64::from_ne_bytes([1; 8]);
    let words = text.chunks_exact(8).map(|word| word.iter().rev().fold(0, |word, byte| word << 8 | *byte as u64));
    for (i, word) in words.enumerate() {
        let rubout = word ^ (0x7f * EACH);
        let found = ((word.wrapping_sub(0x20 * EACH) & !word) | (rubout.wrapping_sub(EACH) & !rubout)) & (0x80 * EACH);
        if found != 0 {
            return 8 * i + found.trailing_zeros() as usize / 8;
        }
    }
    let whole = text.len() / 8 * 8;
    whole + text[whole..].iter().take_while(|byte| !byte.is_ascii_control()).count()
}

impl Line {
    /// What the line discipline makes of bytes that are written.
    pub fn shows(&mut self, mut text: &[u8], out: &mut Vec<u8>) {
        while let Some(byte) = text.first() {
            let plain = plain(text);
            let (made, column): (&[u8], usize) = match byte {
                _ if plain > 0 => (&text[..plain], self.column + plain),
                b'\n' => (b"\r\n", 0),
                b'\r' => (b"\r", 0),
                b'\t' => (&b"        "[self.column % 8..], self.column / 8 * 8 + 8),
                0x08 => (b"\x08", self.column.saturating_sub(1)),
                _ => (&text[..1], self.column),
            };
            out.extend_from_slice(made);
            self.column = column;
            text = &text[plain.max(1)..];
        }
    }
}
