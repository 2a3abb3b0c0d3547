//! The lines of `packets`: each asks for a packet to be written or read.

use crate::cases::{self, refused};
use crate::print::hex;
use crate::script::{self, Fields, Read};
use crate::usb_packets::{self, Packet};

/// As many bytes are lent at most, and at the start.
const ROOM: usize = 67;

enum Line {
    Lend(usize),
    Write(Packet),
    Read(Vec<u8>),
}

/// What `packets` has to print.
pub fn print(input: &[u8]) -> Vec<u8> {
    let mut room = ROOM;
    cases::answers(input, line_of, |line| answer(line, &mut room))
}

fn answer(line: Line, room: &mut usize) -> String {
    let answer = match line {
        Line::Lend(bytes) => {
            *room = bytes;
            Ok("ok".to_string())
        }
        Line::Write(packet) => packet.write(*room).map(|bytes| hex(&bytes)),
        Line::Read(bytes) => usb_packets::read(&bytes).map(|packet| packet.to_string()),
    };
    match answer {
        Ok(text) => text + "\n",
        Err(number) => refused(number),
    }
}

fn line_of(fields: &mut Fields) -> Read<Line> {
    Ok(Line::Write(match fields.word()? {
        "lend" => return Ok(Line::Lend(fields.number(ROOM as u64)? as usize)),
        "out" => Packet::Out(fields.byte()?, fields.byte()?),
        "in" => Packet::In(fields.byte()?, fields.byte()?),
        "sof" => Packet::Sof(fields.size()?),
        "setup" => Packet::Setup(fields.byte()?, fields.byte()?),
        "data0" => Packet::Data0(fields.bytes()?),
        "data1" => Packet::Data1(fields.bytes()?),
        "ack" => Packet::Ack,
        "nak" => Packet::Nak,
        "stall" => Packet::Stall,
        word => return Ok(Line::Read(script::bytes(word)?)),
    }))
}
