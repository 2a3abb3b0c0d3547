//! The record reader of document 01, "The wire record", with document 02, R-13.

use crate::record::{Entry, Written, FAILED, OUT, SETUP};
use std::ops::Range;

/// A record of the grammar.
pub struct Reading {
    pub version: u8,
    /// SETUPs and OUT packets, those of failed transfers too.
    pub entries: Vec<Entry>,
    /// The places of each transfer's entries, failed ones left out.
    pub transfers: Vec<Range<usize>>,
}

/// Reads a record, or says the number that it is refused with.
pub fn read(record: &[u8]) -> Result<Reading, u8> {
    let (version, mut rest) = match record {
        [b'W', b'L', b'G', version @ (1 | 2), 0, rest @ ..] => (*version, rest),
        _ => return Err(18),
    };
    let mut reader = Reader::default();
    while !rest.is_empty() {
        let (written, after) = written(version, rest).ok_or(19)?;
        reader.add(written).ok_or(20)?;
        rest = after;
    }
    reader.close().ok_or(20)?;
    Ok(Reading {
        version,
        entries: reader.entries,
        transfers: reader.transfers,
    })
}

/// What is read first, and the bytes after it.
type First<'a> = Option<(Written, &'a [u8])>;

/// Nothing if it is cut, of unknown kind, or a field is outside its range.
fn written(version: u8, bytes: &[u8]) -> First<'_> {
    let (kind, rest) = bytes.split_first()?;
    match *kind {
        SETUP => setup(rest),
        OUT => out(rest),
        FAILED if version == 2 => failed(rest),
        _ => None,
    }
}

fn setup(bytes: &[u8]) -> First<'_> {
    let (&address, rest) = bytes.split_first()?;
    let (&bytes, rest) = rest.split_first_chunk()?;
    let entry = Entry::Setup { address, bytes };
    (address <= 127).then_some((Written::Armed(entry), rest))
}

fn out(bytes: &[u8]) -> First<'_> {
    let (&[address, endpoint, pid, last, length], rest) = bytes.split_first_chunk()?;
    let (bytes, rest) = rest.split_at_checked(length.into())?;
    let is_in_range =
        address <= 127 && endpoint <= 15 && pid <= 1 && last <= 1 && length <= 64;
    let entry = Entry::Out {
        address,
        endpoint,
        pid,
        last,
        bytes: bytes.to_vec(),
    };
    is_in_range.then_some((Written::Armed(entry), rest))
}

fn failed(bytes: &[u8]) -> First<'_> {
    let (count, rest) = bytes.split_first_chunk()?;
    Some((Written::Failed(u32::from_le_bytes(*count)), rest))
}

/// The entries so far, cut into transfers. There is one way to cut them: an entry that
/// goes on with a transfer can't begin one.
#[derive(Default)]
struct Reader {
    entries: Vec<Entry>,
    /// Whole, not failed, and over.
    transfers: Vec<Range<usize>>,
    /// Where the last transfer begins, if there is one.
    start: usize,
    last: Option<Transfer>,
}

impl Reader {
    /// Nothing if no grammatical end is possible after it.
    fn add(&mut self, written: Written) -> Option<()> {
        match written {
            Written::Armed(entry) => self.arm(entry),
            Written::Failed(count) => self.fail(count),
        }
    }

    fn arm(&mut self, entry: Entry) -> Option<()> {
        let further = self.last.and_then(|transfer| transfer.further(&entry));
        if further.is_none() {
            self.close()?;
        }
        self.last = Some(further.or_else(|| Transfer::begun(&entry))?);
        self.entries.push(entry);
        Some(())
    }

    /// A count is that of all entries of the last transfer, or 0 where that is whole.
    fn fail(&mut self, count: u32) -> Option<()> {
        if count as usize == self.entries.len() - self.start {
            self.last = None;
        } else if count != 0 {
            return None;
        }
        self.close()
    }

    /// The last transfer is over; nothing if it isn't whole.
    fn close(&mut self) -> Option<()> {
        let end = self.entries.len();
        match self.last.take() {
            Some(Transfer::Group(_)) => return None,
            Some(_) => self.transfers.push(self.start..end),
            None => {}
        }
        self.start = end;
        Some(())
    }
}

/// How far a transfer has come.
#[derive(Clone, Copy)]
enum Transfer {
    /// A SETUP alone: whole, but packets may follow.
    Setup { address: u8, length: usize },
    /// The marked packet is missing.
    Group(Group),
    /// Whole, and nothing may follow.
    Ended,
}

impl Transfer {
    fn begun(entry: &Entry) -> Option<Self> {
        match entry {
            Entry::Setup { address, bytes } => Some(Self::Setup {
                address: *address,
                length: u16::from_le_bytes([bytes[6], bytes[7]]).into(),
            }),
            Entry::Out { endpoint: 0, .. } => None,
            Entry::Out {
                address,
                endpoint,
                pid,
                ..
            } => Group::new(*address, *endpoint, *pid, None).further(entry),
        }
    }

    /// The transfer with one entry more, if it can go on so.
    fn further(self, entry: &Entry) -> Option<Self> {
        match self {
            Self::Setup { address, length } => {
                if *entry == status(address) {
                    return Some(Self::Ended);
                }
                Group::new(address, 0, 1, Some(length)).further(entry)
            }
            Self::Group(group) => group.further(entry),
            Self::Ended => None,
        }
    }
}

/// One empty marked DATA1 packet.
fn status(address: u8) -> Entry {
    Entry::Out {
        address,
        endpoint: 0,
        pid: 1,
        last: 1,
        bytes: Vec::new(),
    }
}

/// The unmarked packets of a group.
#[derive(Clone, Copy)]
struct Group {
    address: u8,
    endpoint: u8,
    /// That of the next packet.
    pid: u8,
    /// The packets' one length, after the first.
    size: Option<usize>,
    total: usize,
    /// wLength, of a control.
    length: Option<usize>,
}

impl Group {
    fn new(address: u8, endpoint: u8, pid: u8, length: Option<usize>) -> Self {
        Self {
            address,
            endpoint,
            pid,
            size: None,
            total: 0,
            length,
        }
    }

    fn further(self, entry: &Entry) -> Option<Transfer> {
        let Entry::Out {
            address,
            endpoint,
            pid,
            last,
            bytes,
        } = entry
        else {
            return None;
        };
        if (*address, *endpoint, *pid) != (self.address, self.endpoint, self.pid) {
            return None;
        }
        match last {
            0 => self.longer(bytes.len()).map(Transfer::Group),
            _ => self.ends(bytes.len()).then_some(Transfer::Ended),
        }
    }

    /// An unmarked packet. A control's marked one is not empty, a bulk group's may be.
    fn longer(self, packet: usize) -> Option<Self> {
        let total = self.total + packet;
        let is_in_bounds = match self.length {
            Some(length) => total < length,
            None => total <= 65_535,
        };
        let is_like_others = packet >= 1 && self.size.is_none_or(|size| packet == size);
        (is_in_bounds && is_like_others).then_some(Self {
            pid: 1 - self.pid,
            size: Some(packet),
            total,
            ..self
        })
    }

    /// Whether a marked packet may end the group.
    fn ends(self, packet: usize) -> bool {
        let total = self.total + packet;
        let is_right = match self.length {
            Some(length) => total == length && packet >= 1,
            None => total <= 65_535,
        };
        is_right && self.size.is_none_or(|size| packet <= size)
    }
}

#[cfg(test)]
mod tests {
    use super::*;

    /// A bulk group: so many packets of 64 bytes, and a marked one.
    fn group(count: usize, last: usize) -> Vec<u8> {
        let lengths = std::iter::repeat_n(64, count).chain([last]);
        let packets = lengths.enumerate().flat_map(|(place, length)| {
            let out = Entry::Out {
                address: 5,
                endpoint: 2,
                pid: (place % 2) as u8,
                last: u8::from(place == count),
                bytes: vec![0; length],
            };
            Written::Armed(out).bytes()
        });
        b"WLG\x01\x00".iter().copied().chain(packets).collect()
    }

    /// Longer than what the programs read.
    #[test]
    fn a_group_has_at_most_65535_bytes() {
        assert!(read(&group(1023, 63)).is_ok());
        assert_eq!(read(&group(1023, 64)).err(), Some(20));
        let cut = |count: usize| read(&group(1024, 0)[..5 + 70 * count + 1]).err();
        assert_eq!(cut(1023), Some(19));
        assert_eq!(cut(1024), Some(20));
    }
}
