//! The wire record, from the registers as the logs performed in order leave them and
//! from packet memory at each arming; never from the Rust's state or from samples.

use crate::standins::memory::{Write, PACKET_MEMORY};
use std::collections::BTreeMap;

pub const SETUP_PACKET_LOW: u32 = 0x5010_0000;
pub const SETUP_PACKET_HIGH: u32 = 0x5010_0004;
pub const EP_BUFFER_CONTROL_0: u32 = 0x5010_0080;
pub const ADDR_ENDP: u32 = 0x5011_0000;
pub const SIE_CTRL: u32 = 0x5011_004c;

const START_TRANS: u32 = 1;
pub const SEND_SETUP: u32 = 2;
const AVAILABLE: u32 = 1 << 10;
const FULL: u32 = 1 << 15;

const HEAD: [u8; 5] = *b"WLG\x02\x00";

/// The kinds of entries; FAILED is that of a count.
pub const SETUP: u8 = 0x53;
pub const OUT: u8 = 0x4f;
pub const FAILED: u8 = 0x58;

const ROOM: usize = 131_072;
const NO_ROOM: u8 = 21;

#[derive(Clone, Debug, PartialEq, Eq)]
pub enum Entry {
    Setup {
        address: u8,
        bytes: [u8; 8],
    },
    Out {
        address: u8,
        endpoint: u8,
        pid: u8,
        last: u8,
        bytes: Vec<u8>,
    },
}

/// What stands in a record after its head.
#[derive(Clone)]
pub enum Written {
    Armed(Entry),
    /// The count of a transfer that failed or was cancelled.
    Failed(u32),
}

impl Written {
    pub fn bytes(&self) -> Vec<u8> {
        match self {
            Written::Armed(entry) => encoded(entry),
            Written::Failed(count) => [&[FAILED], &count.to_le_bytes()[..]].concat(),
        }
    }
}

/// Registers after the logs so far.
#[derive(Default)]
pub struct Registers(BTreeMap<u32, u32>);

impl Registers {
    pub fn get(&self, register: u32) -> u32 {
        self.0.get(&register).copied().unwrap_or(0)
    }

    /// A masked store; a delay changes nothing.
    pub fn perform(&mut self, write: &Write) {
        let kept = self.get(write.register) & !write.mask;
        self.0
            .insert(write.register, kept | write.value & write.mask);
    }

    /// Performs a call's log and says what it armed. A call arms a slot at most once, so
    /// packet memory as the call left it is that at the arming.
    pub fn armed(
        &mut self,
        log: &[Write],
        packet_memory: &[u8; PACKET_MEMORY],
    ) -> Vec<Entry> {
        let mut armed = Vec::new();
        for write in log {
            self.perform(write);
            let set = write.mask & write.value;
            match write.register {
                SIE_CTRL if set & START_TRANS != 0 => armed.extend(self.setup()),
                EP_BUFFER_CONTROL_0 => {
                    for slot in 0..2 {
                        if set >> (16 * slot) & AVAILABLE != 0 {
                            armed.extend(self.out(slot, packet_memory));
                        }
                    }
                }
                _ => {}
            }
        }
        // Address and endpoint are those the whole log leaves.
        let addr_endp = self.get(ADDR_ENDP);
        for entry in &mut armed {
            match entry {
                Entry::Setup { address, .. } => *address = addr_endp as u8 & 0x7f,
                Entry::Out {
                    address, endpoint, ..
                } => {
                    *address = addr_endp as u8 & 0x7f;
                    *endpoint = (addr_endp >> 16) as u8 & 0xf;
                }
            }
        }
        armed
    }

    fn setup(&self) -> Option<Entry> {
        if self.get(SIE_CTRL) & SEND_SETUP == 0 {
            return None;
        }
        let low = self.get(SETUP_PACKET_LOW);
        let high = self.get(SETUP_PACKET_HIGH);
        Some(Entry::Setup {
            address: 0,
            bytes: (u64::from(high) << 32 | u64::from(low)).to_le_bytes(),
        })
    }

    fn out(&self, slot: usize, packet_memory: &[u8; PACKET_MEMORY]) -> Option<Entry> {
        let control = self.get(EP_BUFFER_CONTROL_0) >> (16 * slot) & 0xffff;
        if control & FULL == 0 {
            return None;
        }
        let start = 0x180 + 0x40 * slot;
        let length = (control & 0x3ff) as usize;
        Some(Entry::Out {
            address: 0,
            endpoint: 0,
            pid: (control >> 13 & 1) as u8,
            last: (control >> 14 & 1) as u8,
            bytes: packet_memory[start..start + length].to_vec(),
        })
    }
}

/// The record, in its 131,072 bytes.
pub struct Record {
    bytes: Vec<u8>,
    refused: bool,
}

impl Record {
    pub fn new() -> Self {
        Self {
            bytes: HEAD.to_vec(),
            refused: false,
        }
    }

    /// The entries of one call and the count of a transfer that failed or was cancelled,
    /// or nothing if they don't fit together.
    pub fn append(&mut self, armed: &[Entry], failed: Option<u32>) {
        let mut new: Vec<u8> = armed.iter().flat_map(encoded).collect();
        if let Some(count) = failed {
            new.extend(Written::Failed(count).bytes());
        }
        if self.bytes.len() + new.len() > ROOM {
            self.refused = true;
        } else {
            self.bytes.extend(new);
        }
    }

    pub fn bytes(&self) -> Result<&[u8], u8> {
        if self.refused {
            Err(NO_ROOM)
        } else {
            Ok(&self.bytes)
        }
    }
}

fn encoded(entry: &Entry) -> Vec<u8> {
    match entry {
        Entry::Setup { address, bytes } => [&[SETUP, *address], &bytes[..]].concat(),
        Entry::Out {
            address,
            endpoint,
            pid,
            last,
            bytes,
        } => {
            let head = [OUT, *address, *endpoint, *pid, *last, bytes.len() as u8];
            [&head, &bytes[..]].concat()
        }
    }
}

#[cfg(test)]
mod tests {
    use super::*;

    fn write(register: u32, mask: u32, value: u32) -> Write {
        Write {
            register,
            mask,
            value,
        }
    }

    #[test]
    fn arms_a_setup_at_its_start() {
        let log = [
            write(SETUP_PACKET_LOW, u32::MAX, 0x0001_0900),
            write(SETUP_PACKET_HIGH, u32::MAX, 0x0005_0000),
            write(SIE_CTRL, 0x4e, 2),
            write(0, 0, 12),
            write(SIE_CTRL, 1, 1),
            write(ADDR_ENDP, u32::MAX, 9),
        ];
        let setup = Entry::Setup {
            address: 9,
            bytes: [0, 9, 1, 0, 0, 0, 5, 0],
        };
        let mut registers = Registers::default();
        assert_eq!(registers.armed(&log, &[0; PACKET_MEMORY]), [setup]);
        // Without SEND_SETUP the same start arms no SETUP.
        let log = [write(SIE_CTRL, 0xe, 4), write(SIE_CTRL, 1, 1)];
        assert_eq!(registers.armed(&log, &[0; PACKET_MEMORY]), []);
    }

    #[test]
    fn arms_an_out_packet_though_available_was_set() {
        let mut packet_memory = [0; PACKET_MEMORY];
        packet_memory[0x1c0..0x1c2].copy_from_slice(&[7, 8]);
        let log = [
            write(EP_BUFFER_CONTROL_0, 0xe3ff_0000, 0xe002_0000),
            write(EP_BUFFER_CONTROL_0, 0x0400_0000, 0x0400_0000),
        ];
        let out = Entry::Out {
            address: 5,
            endpoint: 2,
            pid: 1,
            last: 1,
            bytes: vec![7, 8],
        };
        let mut registers = Registers::default();
        registers.perform(&write(ADDR_ENDP, u32::MAX, 0x0002_0005));
        registers.perform(&write(EP_BUFFER_CONTROL_0, u32::MAX, 0x0400_0400));
        assert_eq!(registers.armed(&log, &packet_memory), [out]);
        // An IN slot has FULL clear.
        let log = [
            write(EP_BUFFER_CONTROL_0, 0xe3ff, 0x2040),
            write(EP_BUFFER_CONTROL_0, 0x400, 0x400),
        ];
        assert_eq!(registers.armed(&log, &packet_memory), []);
    }

    fn out(length: usize) -> Entry {
        Entry::Out {
            address: 0,
            endpoint: 1,
            pid: 0,
            last: 0,
            bytes: vec![0; length],
        }
    }

    /// A record with room for 27 bytes more.
    fn nearly_full() -> Record {
        let mut record = Record::new();
        for _ in 0..1872 {
            record.append(&[out(64)], None);
        }
        assert_eq!(record.bytes().unwrap().len(), ROOM - 27);
        record
    }

    #[test]
    fn a_count_follows_the_entries() {
        let mut record = Record::new();
        record.append(&[out(1)], Some(0x0102_0304));
        record.append(&[], Some(0));
        let entry = [0x4f, 0, 1, 0, 0, 1, 0];
        let counts = [0x58, 4, 3, 2, 1, 0x58, 0, 0, 0, 0];
        assert_eq!(
            record.bytes().unwrap(),
            [b"WLG\x02\x00", &entry[..], &counts].concat()
        );
    }

    #[test]
    fn refuses_what_no_longer_fits() {
        let mut record = nearly_full();
        record.append(&[], None);
        assert!(record.bytes().is_ok());
        record.append(&[out(64)], None);
        assert_eq!(record.bytes(), Err(21));
        // Until it is emptied, even what would fit.
        record.append(&[], Some(1));
        assert_eq!(record.bytes(), Err(21));
    }

    #[test]
    fn a_count_fits_whole_or_not_at_all() {
        let mut record = nearly_full();
        record.append(&[out(16)], Some(1));
        assert_eq!(record.bytes().unwrap().len(), ROOM);
        record.append(&[], Some(1));
        assert_eq!(record.bytes(), Err(21));
        // The packet alone would fit.
        let mut record = nearly_full();
        record.append(&[out(17)], Some(1));
        assert_eq!(record.bytes(), Err(21));
    }
}
