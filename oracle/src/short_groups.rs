//! The lines of `shortgroups`. Which groups there are is asked of the record reader, which
//! is document 01's grammar: every list of packet lengths is tried on it.

use crate::cases::{self, refused};
use crate::record_reader;
use crate::script::{Fields, Read};

/// As many bytes are lent at most, and where a line doesn't say.
const ROOM: u8 = 255;

/// "a limit n of 0 to 6 bytes"
const LIMIT: u8 = 6;

/// What `shortgroups` has to print.
pub fn print(input: &[u8]) -> Vec<u8> {
    let groups = groups(LIMIT);
    cases::answers(input, line_of, |(limit, room)| {
        list(&groups, limit, room).unwrap_or_else(refused)
    })
}

fn line_of(fields: &mut Fields) -> Read<(u8, u8)> {
    Ok((fields.byte()?, fields.byte_or(ROOM)?))
}

/// The groups of at most `limit` bytes, "given as its packet count and then the lengths, a
/// byte each".
fn list(groups: &[Vec<u8>], limit: u8, room: u8) -> Result<String, u8> {
    if limit > LIMIT {
        return Err(35);
    }
    let listed: Vec<&Vec<u8>> = groups
        .iter()
        .filter(|group| total(group) <= limit)
        .collect();
    let bytes: usize = listed.iter().map(|group| 1 + group.len()).sum();
    if bytes > room.into() {
        return Err(21);
    }
    let lines: String = listed.iter().map(|group| line(group)).collect();
    Ok(lines + &format!("end {}\n", listed.len()))
}

fn line(group: &[u8]) -> String {
    let lengths: String = group.iter().map(|length| format!(" {length}")).collect();
    format!("{}{lengths}\n", group.len())
}

fn total(group: &[u8]) -> u8 {
    group.iter().sum()
}

/// Every group of at most `limit` bytes: "by total bytes, then by number of packets, then by
/// the first length that differs, smaller first".
fn groups(limit: u8) -> Vec<Vec<u8>> {
    let mut groups = Vec::new();
    // One packet more than any group has, as all but the last have a byte.
    let mut lists = vec![Vec::new()];
    for _ in 0..limit + 2 {
        lists = lists.iter().flat_map(|list| longer(list, limit)).collect();
        groups.extend(lists.iter().filter(|list| is_group(list)).cloned());
    }
    groups.sort_by_key(|group| (total(group), group.len(), group.clone()));
    groups
}

/// The list with one length more, `limit` bytes at most.
fn longer(list: &[u8], limit: u8) -> Vec<Vec<u8>> {
    let left = limit - total(list);
    (0..=left)
        .map(|length| [list, &[length]].concat())
        .collect()
}

/// Whether packets of these lengths, the last one marked, are one bulk group.
fn is_group(lengths: &[u8]) -> bool {
    let mut record = b"WLG\x02\0".to_vec();
    for (number, &length) in lengths.iter().enumerate() {
        let last = number + 1 == lengths.len();
        record.extend([b'O', 0, 1, number as u8 % 2, last.into(), length]);
        record.extend(vec![0; length.into()]);
    }
    record_reader::read(&record).is_ok_and(|reading| reading.transfers.len() == 1)
}

#[cfg(test)]
mod tests {
    use super::*;

    /// "For n = 2: 0; 1; 1 0; 2; 1 1; 2 0; 1 1 0."
    #[test]
    fn the_list_for_2() {
        let expected: [&[u8]; 7] =
            [&[0], &[1], &[1, 0], &[2], &[1, 1], &[2, 0], &[1, 1, 0]];
        assert_eq!(groups(2), expected);
    }

    /// As many as counted by packet size: a packet alone, or k packets of p bytes before the
    /// last one.
    #[test]
    fn as_many_as_counted() {
        let counted = |limit: usize| -> usize {
            let full = (1..=limit).map(|p| {
                (1..=limit / p)
                    .map(|k| p.min(limit - k * p) + 1)
                    .sum::<usize>()
            });
            limit + 1 + full.sum::<usize>()
        };
        for limit in 0..=LIMIT {
            assert_eq!(groups(limit).len(), counted(limit.into()));
        }
    }
}
