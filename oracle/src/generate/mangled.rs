//! Scripts of which some lines have a byte changed, put in or left out.

use super::Generator;
use crate::rng::Rng;
use std::io::{self, Write};

/// Bytes that mean something in a line, and some that don't.
const BYTES: &[u8] = b"   0123456789abcdefABCDEFxXgseq::-+#\t\r\0\x7f\xff";

impl<W: Write> Generator<W> {
    pub fn mangled(&mut self) -> io::Result<()> {
        match self.rng.below(8) {
            0 => self.short_loan(),
            1 if self.is_begin_wanted() => self.any_begin(),
            2 => self.any_open(),
            _ => self.hostile(),
        }
    }
}

/// The text with a byte changed, put in or left out, or cut off.
pub fn mangle(rng: &mut Rng, text: &str) -> Vec<u8> {
    let mut text = text.as_bytes().to_vec();
    let at = rng.below(text.len() as u64) as usize;
    let new = rng.pick(BYTES);
    match rng.below(5) {
        0 => text[at] = new,
        1 => text.insert(at, new),
        2 => text.push(new),
        3 => text.truncate(at),
        _ => {
            text.remove(at);
        }
    }
    text
}
