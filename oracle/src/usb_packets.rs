//! Packets on the wire, written and read bit by bit in the order in which USB 2.0 sends
//! them: sections 8.1, 8.3 and 8.4.

use crate::print::hex;
use std::fmt;

// Table 8-1.
const OUT: u8 = 0b0001;
const IN: u8 = 0b1001;
const SOF: u8 = 0b0101;
const SETUP: u8 = 0b1101;
const DATA0: u8 = 0b0011;
const DATA1: u8 = 0b1011;
const ACK: u8 = 0b0010;
const NAK: u8 = 0b1010;
const STALL: u8 = 0b1110;

/// A packet with its fields: address and endpoint, frame number, data.
#[derive(Debug, PartialEq, Eq)]
pub enum Packet {
    Out(u8, u8),
    In(u8, u8),
    Sof(u16),
    Setup(u8, u8),
    Data0(Vec<u8>),
    Data1(Vec<u8>),
    Ack,
    Nak,
    Stall,
}

impl Packet {
    /// The bytes, or 19 for a field outside its range, then 21 for too little room.
    pub fn write(&self, room: usize) -> Result<Vec<u8>, u8> {
        if !self.is_in_range() {
            return Err(19);
        }
        let bytes = self.bytes();
        match bytes.len() <= room {
            true => Ok(bytes),
            false => Err(21),
        }
    }

    fn is_in_range(&self) -> bool {
        match self {
            Self::Out(address, endpoint)
            | Self::In(address, endpoint)
            | Self::Setup(address, endpoint) => *address <= 127 && *endpoint <= 15,
            Self::Sof(frame) => *frame <= 2047,
            Self::Data0(data) | Self::Data1(data) => data.len() <= 64,
            Self::Ack | Self::Nak | Self::Stall => true,
        }
    }

    /// The bytes of a packet whose fields are in range.
    pub fn bytes(&self) -> Vec<u8> {
        let pid = self.pid();
        let bits = match self {
            Self::Out(address, endpoint)
            | Self::In(address, endpoint)
            | Self::Setup(address, endpoint) => {
                CRC5.followed([field(*address, 7), field(*endpoint, 4)].concat())
            }
            Self::Sof(frame) => CRC5.followed(field(*frame, 11)),
            Self::Data0(data) | Self::Data1(data) => CRC16.followed(bits_of(data)),
            Self::Ack | Self::Nak | Self::Stall => Vec::new(),
        };
        bytes_of(&[field(pid, 4), field(!pid, 4), bits].concat())
    }

    fn pid(&self) -> u8 {
        match self {
            Self::Out(..) => OUT,
            Self::In(..) => IN,
            Self::Sof(_) => SOF,
            Self::Setup(..) => SETUP,
            Self::Data0(_) => DATA0,
            Self::Data1(_) => DATA1,
            Self::Ack => ACK,
            Self::Nak => NAK,
            Self::Stall => STALL,
        }
    }
}

/// The packet that the bytes are: 25 no byte, an unknown PID or a wrong check nibble, 26
/// a wrong length, 27 a wrong CRC.
pub fn read(bytes: &[u8]) -> Result<Packet, u8> {
    let (&first, rest) = bytes.split_first().ok_or(25)?;
    let (pid, check) = (first & 0xf, first >> 4);
    if pid ^ check != 0xf {
        return Err(25);
    }
    match pid {
        OUT => token(rest).map(|(address, endpoint)| Packet::Out(address, endpoint)),
        IN => token(rest).map(|(address, endpoint)| Packet::In(address, endpoint)),
        SETUP => token(rest).map(|(address, endpoint)| Packet::Setup(address, endpoint)),
        SOF => token_bits(rest).map(|bits| Packet::Sof(number(&bits))),
        DATA0 => data(rest).map(Packet::Data0),
        DATA1 => data(rest).map(Packet::Data1),
        ACK => handshake(rest, Packet::Ack),
        NAK => handshake(rest, Packet::Nak),
        STALL => handshake(rest, Packet::Stall),
        _ => Err(25),
    }
}

/// Address and endpoint.
fn token(rest: &[u8]) -> Result<(u8, u8), u8> {
    let bits = token_bits(rest)?;
    let (address, endpoint) = bits.split_at(7);
    Ok((number(address) as u8, number(endpoint) as u8))
}

/// The eleven bits that CRC5 is right for.
fn token_bits(rest: &[u8]) -> Result<Vec<bool>, u8> {
    if rest.len() != 2 {
        return Err(26);
    }
    CRC5.checked(bits_of(rest)).ok_or(27)
}

fn data(rest: &[u8]) -> Result<Vec<u8>, u8> {
    if !(2..=66).contains(&rest.len()) {
        return Err(26);
    }
    let bits = CRC16.checked(bits_of(rest)).ok_or(27)?;
    Ok(bytes_of(&bits))
}

fn handshake(rest: &[u8], packet: Packet) -> Result<Packet, u8> {
    match rest {
        [] => Ok(packet),
        _ => Err(26),
    }
}

/// The reading, as the lines of `packets` spell it.
impl fmt::Display for Packet {
    fn fmt(&self, f: &mut fmt::Formatter<'_>) -> fmt::Result {
        match self {
            Self::Out(address, endpoint) => write!(f, "out {address} {endpoint}"),
            Self::In(address, endpoint) => write!(f, "in {address} {endpoint}"),
            Self::Sof(frame) => write!(f, "sof {frame}"),
            Self::Setup(address, endpoint) => write!(f, "setup {address} {endpoint}"),
            Self::Data0(data) => write!(f, "data0 {}", hex(data)),
            Self::Data1(data) => write!(f, "data1 {}", hex(data)),
            Self::Ack => write!(f, "ack"),
            Self::Nak => write!(f, "nak"),
            Self::Stall => write!(f, "stall"),
        }
    }
}

/// A field's bits are sent lowest first.
fn field(value: impl Into<u16>, width: u16) -> Vec<bool> {
    let value = value.into();
    (0..width).map(|place| value >> place & 1 == 1).collect()
}

fn number(bits: &[bool]) -> u16 {
    bits.iter()
        .rev()
        .fold(0, |value, bit| 2 * value + u16::from(*bit))
}

fn bits_of(bytes: &[u8]) -> Vec<bool> {
    bytes.iter().flat_map(|byte| field(*byte, 8)).collect()
}

fn bytes_of(bits: &[bool]) -> Vec<u8> {
    bits.chunks(8).map(|bits| number(bits) as u8).collect()
}

/// Section 8.3.5's shift register of so many bits. The generator is without its highest
/// term; the residual is what bits and their CRC leave.
struct Crc {
    width: u16,
    generator: u16,
    residual: u16,
}

const CRC5: Crc = Crc {
    width: 5,
    generator: 0b00101,
    residual: 0b01100,
};

const CRC16: Crc = Crc {
    width: 16,
    generator: 0b1000_0000_0000_0101,
    residual: 0b1000_0000_0000_1101,
};

impl Crc {
    /// All ones at first. For each bit the register is shifted left; if the bit that it
    /// loses isn't the one sent, the generator is added.
    fn remainder(&self, bits: &[bool]) -> u16 {
        let ones = u16::MAX >> (16 - self.width);
        bits.iter().fold(ones, |register, bit| {
            let lost = register >> (self.width - 1) == 1;
            let shifted = register << 1 & ones;
            match lost != *bit {
                true => shifted ^ self.generator,
                false => shifted,
            }
        })
    }

    /// The bits and after them the remainder's complement, highest bit first.
    fn followed(&self, mut bits: Vec<bool>) -> Vec<bool> {
        let complement = field(!self.remainder(&bits), self.width);
        bits.extend(complement.iter().rev());
        bits
    }

    /// The bits without their CRC, if it is right.
    fn checked(&self, mut bits: Vec<bool>) -> Option<Vec<bool>> {
        let is_right = self.remainder(&bits) == self.residual;
        bits.truncate(bits.len() - usize::from(self.width));
        is_right.then_some(bits)
    }
}

#[cfg(test)]
mod tests {
    use super::*;

    /// The catalogue's check values of CRC-5/USB and CRC-16/USB.
    #[test]
    fn check_values() {
        let crc = |crc: &Crc| number(&crc.followed(bits_of(b"123456789"))[72..]);
        assert_eq!(crc(&CRC5), 0x19);
        assert_eq!(crc(&CRC16), 0xb4c8);
    }

    fn packets() -> Vec<Packet> {
        let tokens = (0..128).flat_map(|address| {
            (0..16).flat_map(move |endpoint| {
                [Packet::Out, Packet::In, Packet::Setup]
                    .map(|token| token(address, endpoint))
            })
        });
        let data = (0..=64).flat_map(|length| {
            let bytes: Vec<u8> = (0..length).map(|i| 3 * i + length).collect();
            [Packet::Data0(bytes.clone()), Packet::Data1(bytes)]
        });
        tokens
            .chain((0..2048).map(Packet::Sof))
            .chain(data)
            .chain([Packet::Ack, Packet::Nak, Packet::Stall])
            .collect()
    }

    /// The reader goes by the residual, the writer doesn't.
    #[test]
    fn packets_written_are_read() {
        for packet in packets() {
            let mut bytes = packet.write(67).unwrap();
            assert_eq!(read(&bytes), Ok(packet));
            for bit in 0..8 * bytes.len() {
                bytes[bit / 8] ^= 1 << (bit % 8);
                assert_eq!(read(&bytes), Err(if bit < 8 { 25 } else { 27 }));
                bytes[bit / 8] ^= 1 << (bit % 8);
            }
        }
    }
}
