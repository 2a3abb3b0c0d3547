//! Random configuration descriptors, whole and damaged, one a line.

use crate::print::hex;
use crate::rng::Rng;

/// Values near the limits of bLength and the descriptor types.
const EDGES: [u8; 15] = [0, 1, 2, 3, 4, 5, 6, 7, 8, 9, 10, 14, 15, 16, 255];

/// So many lines of `descriptorcases`' input.
pub fn lines(seed: u64, count: u64) -> Vec<u8> {
    let mut random = Configurations(Rng::new(seed));
    let lines: String = (0..count).map(|_| random.line()).collect();
    lines.into_bytes()
}

struct Configurations(Rng);

impl Configurations {
    fn line(&mut self) -> String {
        let bytes = match self.0.below(10) {
            0 => self.any_bytes(),
            1 => self.edge_bytes(),
            _ => self.descriptors(),
        };
        hex(&bytes) + "\n"
    }

    fn any_bytes(&mut self) -> Vec<u8> {
        (0..self.0.below(30)).map(|_| self.0.bits() as u8).collect()
    }

    /// A head of its own total, then bytes near the limits.
    fn edge_bytes(&mut self) -> Vec<u8> {
        let mut bytes = self.head();
        bytes.extend((0..self.0.below(40)).map(|_| self.0.pick(&EDGES)));
        self.with_total(bytes)
    }

    /// Descriptors one after the other, mostly whole.
    fn descriptors(&mut self) -> Vec<u8> {
        let mut bytes = self.head();
        for _ in 0..self.0.below(12) {
            let length = match self.0.below(8) {
                0..3 => 7,
                3..5 => 9,
                5 => self.0.pick(&EDGES),
                6 => self.0.bits() as u8,
                _ => 2,
            };
            let kind = match self.0.bit() {
                true => self.0.pick(&[2, 4, 5, 5, 5, 0x21, 0x24]),
                false => self.0.bits() as u8,
            };
            bytes.extend([length, kind]);
            bytes.extend((2..length).map(|_| self.0.bits() as u8));
        }
        let bytes = self.with_total(bytes);
        self.damaged(bytes)
    }

    fn head(&mut self) -> Vec<u8> {
        let length = if self.0.once_in(8) {
            self.0.pick(&EDGES)
        } else {
            9
        };
        let mut head = vec![length, 2];
        head.extend((0..7).map(|_| self.0.bits() as u8));
        head
    }

    /// wTotalLength is the bytes' length, or near it.
    fn with_total(&mut self, mut bytes: Vec<u8>) -> Vec<u8> {
        let total = match self.0.below(8) {
            0 => bytes.len() as u16 + 1,
            1 => bytes.len() as u16 - 1,
            2 => self.0.below(12) as u16,
            _ => bytes.len() as u16,
        };
        bytes[2..4].copy_from_slice(&total.to_le_bytes());
        bytes
    }

    /// A byte changed, bytes cut off or bytes added; half of the time none.
    fn damaged(&mut self, mut bytes: Vec<u8>) -> Vec<u8> {
        let at = self.0.below(bytes.len() as u64) as usize;
        match self.0.below(8) {
            0 => bytes[at] = self.0.pick(&EDGES),
            1 => bytes[at] = self.0.bits() as u8,
            2 => bytes.truncate(at),
            3 => bytes.push(self.0.pick(&EDGES)),
            _ => {}
        }
        bytes
    }
}
