//! Random lines of `packets`: packets to write and to read, whole and damaged.

use crate::cases::LONGEST;
use crate::generate::mangle;
use crate::print::hex;
use crate::rng::Rng;
use crate::usb_packets::Packet;

/// Values near the limits of a token's fields.
const EDGES: [u64; 12] = [0, 1, 14, 15, 16, 17, 126, 127, 128, 254, 255, 256];
const FRAMES: [u64; 7] = [0, 1, 2046, 2047, 2048, 65_535, 65_536];
const LENGTHS: [u64; 9] = [0, 1, 2, 3, 62, 63, 64, 65, 66];

/// So many lines, seldom with a comment after them that makes the input as long as it may
/// be, or a byte longer.
pub fn lines(seed: u64, count: u64) -> Vec<u8> {
    let mut random = Lines(Rng::new(seed));
    let mut lines: Vec<u8> = (0..count).flat_map(|_| random.line()).collect();
    if random.0.once_in(40) {
        lines.resize(LONGEST + usize::from(random.0.bit()), b'#');
    }
    lines
}

struct Lines(Rng);

impl Lines {
    fn line(&mut self) -> Vec<u8> {
        let text = match self.0.below(32) {
            0 => format!("lend {}", self.0.below(69)),
            1..3 => "lend 67".to_string(),
            3 => "# a comment".to_string(),
            4 => hex(&self.any_bytes()),
            5..12 => self.fields(),
            12..18 => self.packet().to_string(),
            _ => hex(&self.damaged()),
        };
        let mut line = match self.0.once_in(16) {
            true => mangle(&mut self.0, &text),
            false => text.into_bytes(),
        };
        line.push(b'\n');
        line
    }

    fn any_bytes(&mut self) -> Vec<u8> {
        (0..self.0.below(8)).map(|_| self.0.bits() as u8).collect()
    }

    /// A packet to write, with fields near their limits.
    fn fields(&mut self) -> String {
        match self.0.below(8) {
            0..5 => {
                let token = self.0.pick(&["out", "in", "setup"]);
                format!("{token} {} {}", self.number(&EDGES), self.number(&EDGES))
            }
            5..7 => format!("sof {}", self.number(&FRAMES)),
            _ => {
                let data = self.0.pick(&["data0", "data1"]);
                let (start, step) = (self.0.below(257), self.0.below(257));
                format!("{data} seq:{}:{start}:{step}", self.number(&LENGTHS))
            }
        }
    }

    fn number(&mut self, edges: &[u64]) -> String {
        let number = match self.0.bit() {
            true => self.0.pick(edges),
            false => self.0.below(edges[edges.len() - 1] / 2),
        };
        match self.0.once_in(4) {
            true => format!("{number:#x}"),
            false => number.to_string(),
        }
    }

    /// Any packet; data seldom has a byte too many.
    fn packet(&mut self) -> Packet {
        let (address, endpoint) = (self.0.below(128) as u8, self.0.below(16) as u8);
        match self.0.below(12) {
            0 => Packet::Out(address, endpoint),
            1 => Packet::In(address, endpoint),
            2 => Packet::Sof(self.0.below(2048) as u16),
            3 => Packet::Setup(address, endpoint),
            4..7 => Packet::Data0(self.data()),
            7..9 => Packet::Data1(self.data()),
            9 => Packet::Ack,
            10 => Packet::Nak,
            _ => Packet::Stall,
        }
    }

    fn data(&mut self) -> Vec<u8> {
        let most = self.0.pick(&[5, 9, 65]);
        let length = match self.0.once_in(8) {
            true => self.0.pick(&[64, 65]),
            false => self.0.below(most),
        };
        (0..length).map(|_| self.0.bits() as u8).collect()
    }

    /// A packet's bytes, or those with one thing wrong.
    fn damaged(&mut self) -> Vec<u8> {
        let mut bytes = self.packet().bytes();
        let at = self.0.below(bytes.len() as u64) as usize;
        let last = bytes.len() - 1;
        let other = self.packet().bytes();
        match self.0.below(14) {
            0..3 => bytes[at] ^= 1 << self.0.below(8),
            3 => bytes[0] = self.0.bits() as u8,
            4 => bytes[0] = other[0],
            5 => bytes.truncate(at),
            6 => bytes.extend(self.any_bytes()),
            7 => bytes.extend(other),
            // Another's CRC; its bytes in the other order; CRC5, CRC16 not complemented.
            8 => bytes[last] = other[other.len() - 1],
            9 if last >= 2 => bytes.swap(last - 1, last),
            10 if last == 2 => bytes[2] ^= 0xf8,
            10 if last > 2 => bytes[last - 1..].iter_mut().for_each(|byte| *byte ^= 0xff),
            _ => {}
        }
        bytes
    }
}

#[cfg(test)]
mod tests {
    use super::*;
    use crate::packet_lines;
    use std::collections::BTreeSet;

    /// Every packet, read and written, every refusal and a line that can't be read.
    #[test]
    fn all_answers_come_up() {
        let output = String::from_utf8(packet_lines::print(&lines(1, 1000))).unwrap();
        let answers: BTreeSet<&str> = output
            .lines()
            .map(|line| match line.split_once(' ') {
                Some(("refused", number)) => number,
                Some((word, _)) => word,
                None if line.len() % 2 == 0 && line != "ok" => &line[..2],
                None => line,
            })
            .collect();
        let all = BTreeSet::from([
            "out", "in", "sof", "setup", "data0", "data1", "ack", "nak", "stall", "e1",
            "69", "a5", "2d", "c3", "4b", "d2", "5a", "1e", "19", "21", "25", "26", "27",
            "ok", "line",
        ]);
        assert_eq!(answers, all);
    }

    /// Inputs are short enough, but for those that shall not be.
    #[test]
    fn inputs_are_read() {
        let lengths = BTreeSet::from_iter((0..400).map(|seed| lines(seed, 1000).len()));
        let longest: Vec<&usize> = lengths.range(60_000..).collect();
        assert_eq!(longest, [&65_536, &65_537]);
    }
}
