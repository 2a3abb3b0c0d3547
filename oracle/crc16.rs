//! A plain table-driven CRC16 (USB 2.0 section 8.3.5) of the record that `packetbench` has, for docs/BENCHMARKS.md.

use std::hint::black_box;
use std::io::Read;

const fn table() -> [u16; 256] {
    let mut table = [0u16; 256];
    let mut n = 0;
    while n < 256 {
        let mut c = n as u16;
        let mut bit = 0;
        while bit < 8 {
            c = if c & 1 == 1 { c >> 1 ^ 0xA001 } else { c >> 1 };
            bit += 1;
        }
        table[n] = c;
        n += 1;
    }
    table
}

static TABLE: [u16; 256] = table();

fn crc16(bytes: &[u8]) -> u16 {
    let mut c = 0xFFFFu16;
    for &byte in bytes {
        c = c >> 8 ^ TABLE[usize::from(c as u8 ^ byte)];
    }
    !c
}

/// Byte i of a record of version 2 whose entries are OUT packets of 64 bytes, each a group.
fn record_byte(i: usize) -> u8 {
    match (i, i % 70) {
        (0..=4, place) => b"WLG\x02\x00"[place],
        (_, place @ 5..=10) => [0x4F, 5, 2, 0, 1, 64][place - 5],
        _ => (i % 251) as u8,
    }
}

fn main() {
    let record: Vec<u8> = (0..65_455).map(record_byte).collect();
    let mut letter = [0u8; 1];
    let read = std::io::stdin().read(&mut letter).expect("standard input");
    let crc = if read == 1 && letter[0] == b'C' {
        crc16(black_box(&record))
    } else {
        0
    };
    println!("{crc}");
}
