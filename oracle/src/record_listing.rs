//! What `wirecases`, `wirepacketcases` and `wirepcap` have to print of a record.

use crate::cases::{self, refused, LONGEST};
use crate::print::hex;
use crate::record::Entry;
use crate::record_reader::{self, Reading};
use crate::usb_packets::Packet;

/// The head of a pcap file: its mark, version 2.4, no time zone, no accuracy, packets of at
/// most 65,535 bytes, link type 288.
const PCAP_HEAD: [u32; 6] = [0xa1b2_c3d4, 0x0004_0002, 0, 0, 65_535, 288];

/// Lists the transfers of each line's record.
pub fn transfers(lines: &[u8]) -> Vec<u8> {
    cases::print(lines, |record| listed(record, list_transfers))
}

/// Lists the packets of each line's record.
pub fn packets(lines: &[u8]) -> Vec<u8> {
    cases::print(lines, |record| listed(record, list_packets))
}

/// The packets of the record as a pcap file. A packet's number stands for its time, in
/// microseconds.
pub fn pcap(record: &[u8]) -> Vec<u8> {
    let packets = match limited(record) {
        Ok(reading) => packets_of(&reading),
        Err(number) => return refused(number).into_bytes(),
    };
    let mut file = PCAP_HEAD.map(u32::to_le_bytes).concat();
    for (number, packet) in (0..).zip(packets) {
        let length = packet.len() as u32;
        let head = [number / 1_000_000, number % 1_000_000, length, length];
        file.extend(head.map(u32::to_le_bytes).concat());
        file.extend(packet);
    }
    file
}

fn listed(record: &[u8], listing: impl Fn(&Reading) -> String) -> String {
    match limited(record) {
        Ok(reading) => listing(&reading),
        Err(number) => refused(number),
    }
}

fn limited(record: &[u8]) -> Result<Reading, u8> {
    match record.len() <= LONGEST {
        true => record_reader::read(record),
        false => Err(21),
    }
}

fn list_transfers(reading: &Reading) -> String {
    let lines: String = reading
        .transfers
        .iter()
        .map(|places| transfer(&reading.entries[places.clone()]))
        .collect();
    let (version, count) = (reading.version, reading.transfers.len());
    format!("WLG {version}\n{lines}end {count}\n")
}

fn transfer(entries: &[Entry]) -> String {
    let total: usize = entries
        .iter()
        .map(|entry| match entry {
            Entry::Setup { .. } => 0,
            Entry::Out { bytes, .. } => bytes.len(),
        })
        .sum();
    match &entries[0] {
        Entry::Setup { address, bytes } => {
            format!("control {address} {} {total}\n", hex(bytes))
        }
        Entry::Out {
            address,
            endpoint,
            pid,
            ..
        } => format!("bulk {address} {endpoint} {pid} {total}\n"),
    }
}

fn list_packets(reading: &Reading) -> String {
    let packets = packets_of(reading);
    let lines: String = packets.iter().map(|packet| hex(packet) + "\n").collect();
    format!("{lines}# end {}\n", packets.len())
}

fn packets_of(reading: &Reading) -> Vec<Vec<u8>> {
    let packets = reading.entries.iter().flat_map(exported);
    packets.map(|packet| packet.bytes()).collect()
}

/// An entry's token and data packet.
fn exported(entry: &Entry) -> [Packet; 2] {
    match entry.clone() {
        Entry::Setup { address, bytes } => {
            [Packet::Setup(address, 0), Packet::Data0(bytes.to_vec())]
        }
        Entry::Out {
            address,
            endpoint,
            pid,
            bytes,
            ..
        } => {
            let data = match pid {
                0 => Packet::Data0(bytes),
                _ => Packet::Data1(bytes),
            };
            [Packet::Out(address, endpoint), data]
        }
    }
}

#[cfg(test)]
mod tests {
    use super::*;

    /// The stored outputs of `wirepackets` and `wirelist`, of one record each.
    #[test]
    fn stored_records() {
        assert_eq!(
            listed(
                include_bytes!("../../crates/wirepackets/stdin"),
                list_packets
            ),
            include_str!("../../crates/wirepackets/stdout")
        );
        assert_eq!(
            listed(
                include_bytes!("../../crates/wirelist/stdin"),
                list_transfers
            ),
            include_str!("../../crates/wirelist/stdout")
        );
    }
}
