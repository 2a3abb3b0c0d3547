//! Random records of every shape of the grammar, whole and damaged, one a line.

use crate::print::hex;
use crate::record::{Entry, Written, FAILED, OUT, SETUP};
use crate::rng::Rng;

/// So many lines of `wirecases`' and `wirepacketcases`' input.
pub fn lines(seed: u64, count: u64) -> Vec<u8> {
    let mut random = Records(Rng::new(seed));
    let lines: String = (0..count).map(|_| random.line()).collect();
    lines.into_bytes()
}

struct Records(Rng);

impl Records {
    fn line(&mut self) -> String {
        let version = match self.0.below(40) {
            0 => self.0.pick(&[0, 3]),
            1..10 => 1,
            _ => 2,
        };
        let mut written: Vec<Written> = (0..self.0.below(5))
            .flat_map(|_| self.transfer(version))
            .collect();
        if self.0.once_in(3) && !written.is_empty() {
            self.alter(&mut written);
        }
        let mut record = [b'W', b'L', b'G', version, 0].to_vec();
        record.extend(written.iter().flat_map(Written::bytes));
        if self.0.once_in(4) {
            self.damage(&mut record);
        }
        hex(&record) + "\n"
    }

    /// A transfer's entries, or the first of them and their count.
    fn transfer(&mut self, version: u8) -> Vec<Written> {
        let address = self.0.pick(&[0, 5, 127]);
        let entries = match self.0.below(8) {
            0 => self.control(address, None),
            1 => self.control(address, Some(&[0])),
            2..5 => {
                let lengths = self.lengths(1);
                self.control(address, Some(&lengths))
            }
            _ => {
                let endpoint = self.0.pick(&[1, 2, 15]);
                let (pid, lengths) = (self.0.below(2) as u8, self.lengths(0));
                self.group(address, endpoint, pid, &lengths)
            }
        };
        let mut written: Vec<Written> = entries.into_iter().map(Written::Armed).collect();
        if self.0.once_in(if version == 2 { 3 } else { 100 }) {
            written.truncate(self.0.below(written.len() as u64 + 1) as usize);
            written.push(Written::Failed(written.len() as u32));
        }
        written
    }

    /// A SETUP, and a status or data stage of these lengths.
    fn control(&mut self, address: u8, lengths: Option<&[usize]>) -> Vec<Entry> {
        let mut bytes = self.0.word().to_le_bytes();
        let total: usize = lengths.unwrap_or(&[]).iter().sum();
        if total > 0 || self.0.bit() {
            bytes[6..].copy_from_slice(&(total as u16).to_le_bytes());
        }
        let mut entries = vec![Entry::Setup { address, bytes }];
        if let Some(lengths) = lengths {
            entries.extend(self.group(address, 0, 1, lengths));
        }
        entries
    }

    /// The packet lengths of a group whose last one has at least so many bytes.
    fn lengths(&mut self, least: u64) -> Vec<usize> {
        let size = match self.0.below(12) {
            0 => 64,
            1 => self.0.below(64) + 1,
            _ => self.0.pick(&[1, 2, 3, 8]),
        };
        let (size, count) = match self.0.once_in(200) {
            true => (1, 250 + self.0.below(20)),
            false => (size, self.0.below(4)),
        };
        let last = match self.0.below(4) {
            0 => size,
            1 => least,
            _ => least + self.0.below(size + 1 - least),
        };
        let mut lengths = vec![size as usize; count as usize];
        lengths.push(last as usize);
        lengths
    }

    fn group(
        &mut self,
        address: u8,
        endpoint: u8,
        pid: u8,
        lengths: &[usize],
    ) -> Vec<Entry> {
        let out = |(place, length): (usize, &usize)| Entry::Out {
            address,
            endpoint,
            pid: (pid + place as u8 % 2) % 2,
            last: u8::from(place + 1 == lengths.len()),
            bytes: (0..*length).map(|_| self.0.bits() as u8).collect(),
        };
        lengths.iter().enumerate().map(out).collect()
    }

    /// One entry changed, left out, put in again or at another place.
    fn alter(&mut self, written: &mut Vec<Written>) {
        let count = written.len() as u64;
        let (at, to) = (self.0.below(count) as usize, self.0.below(count) as usize);
        match self.0.below(8) {
            0 => {
                written.remove(at);
            }
            1 => written.insert(to, written[at].clone()),
            2 => written.swap(at, to),
            3 => written.insert(at, Written::Failed(self.0.below(4) as u32)),
            _ => match &mut written[at] {
                Written::Failed(count) => {
                    *count = count.wrapping_add(self.0.pick(&[1, u32::MAX, 256, 1 << 31]))
                }
                Written::Armed(Entry::Setup { address, bytes }) => {
                    match self.0.below(4) {
                        0 => *address = self.0.pick(&[0, 5, 127, 128]),
                        _ => bytes[6] = bytes[6].wrapping_add(self.0.pick(&[1, 255])),
                    }
                }
                Written::Armed(out) => self.alter_out(out),
            },
        }
    }

    fn alter_out(&mut self, out: &mut Entry) {
        let Entry::Out {
            address,
            endpoint,
            pid,
            last,
            bytes,
        } = out
        else {
            return;
        };
        match self.0.below(6) {
            0 => *address = self.0.pick(&[0, 5, 127, 128]),
            1 => *endpoint = self.0.pick(&[0, 1, 2, 15, 16]),
            2 => *pid ^= self.0.pick(&[1, 1, 2]),
            3 => *last ^= self.0.pick(&[1, 1, 2]),
            4 => bytes.push(0),
            _ => {
                bytes.pop();
            }
        }
    }

    /// A bit flipped, a byte changed, put in or left out, or bytes cut off.
    fn damage(&mut self, record: &mut Vec<u8>) {
        let at = self.0.below(record.len() as u64) as usize;
        let new = self
            .0
            .pick(&[0, 1, 2, 64, 65, 127, 128, SETUP, OUT, FAILED]);
        match self.0.below(6) {
            0 => record[at] ^= 1 << self.0.below(8),
            1 => record[at] = new,
            2 => record.insert(at, new),
            3 => record.push(new),
            4 => record.truncate(at),
            _ => {
                record.remove(at);
            }
        }
    }
}

#[cfg(test)]
mod tests {
    use super::*;
    use crate::record_listing;
    use std::collections::BTreeSet;

    /// Records of both versions with transfers of both kinds, and every refusal.
    #[test]
    fn all_answers_come_up() {
        let output = record_listing::transfers(&lines(1, 1000));
        let output = String::from_utf8(output).unwrap();
        let answers: BTreeSet<&str> = output
            .lines()
            .map(|line| match line.split_once(' ') {
                Some((word @ ("control" | "bulk" | "end"), _)) => word,
                _ => line,
            })
            .collect();
        let all = BTreeSet::from([
            "WLG 1",
            "WLG 2",
            "control",
            "bulk",
            "end",
            "refused 18",
            "refused 19",
            "refused 20",
            ".",
        ]);
        assert_eq!(answers, all);
    }

    /// The programs read less than 600,000 bytes.
    #[test]
    fn inputs_are_read() {
        assert!((0..200).all(|seed| lines(seed, 1000).len() < 300_000));
    }
}
