//! Refused calls: every fault of every call alone and every two of them, which shows the
//! order of the checks.

use super::Vectors;
use std::io::{self, Write};

#[derive(Clone, Copy, Debug, PartialEq, Eq)]
pub enum Fault {
    PacketMemory,
    Log,
    /// A begin or start: a transfer is under way. A step: none is. An open: all pipes
    /// are. A poll or close: the pipe isn't. A coming: the caller waits.
    Busy,
    Address,
    Endpoint,
    Size,
    Length,
    /// A coming: the caller's number. A start: nobody has the turn.
    Caller,
    /// A start: the caller's transfer is of another.
    Kind,
    /// A coming: the transfer is larger than the caller's.
    Share,
}

use Fault::{Address, Busy, Endpoint, Length, Log, PacketMemory, Size};

impl<W: Write> Vectors<W> {
    pub fn refusals(&mut self) -> io::Result<()> {
        for call in ["control-in", "control-out", "control-none"] {
            self.one_or_two(call, &[PacketMemory, Log, Busy, Address, Size])?;
        }
        let all = [PacketMemory, Log, Busy, Address, Endpoint, Size, Length];
        for call in ["bulk-in", "bulk-out"] {
            self.one_or_two(call, &all)?;
        }
        for call in ["step-in", "step-out"] {
            self.one_or_two(call, &[PacketMemory, Log, Busy, Length])?;
        }
        self.one_or_two("open", &[PacketMemory, Log, Address, Endpoint, Size, Busy])?;
        for call in ["poll", "close", "cancel", "irq", "detect"] {
            self.one_or_two(call, &[PacketMemory, Log, Busy])?;
        }
        self.loans()
    }

    fn one_or_two(&mut self, call: &str, faults: &[Fault]) -> io::Result<()> {
        for pair in pairs(faults) {
            self.case(&format!("{call}: {:?}, {:?}", pair[0], pair[1]))?;
            let has = |fault| pair.contains(&fault);
            self.before(call, has(Busy))?;
            self.lend(has(PacketMemory), has(Log))?;
            self.faulty(call, has)?;
        }
        Ok(())
    }

    /// Brings the driver to where the call is sound, or, if `busy`, where it isn't.
    fn before(&mut self, call: &str, busy: bool) -> io::Result<()> {
        match (call, busy) {
            ("control-in" | "control-out" | "control-none", true) => {
                self.line("bulk-in 1 1 8 fixed 0 8")
            }
            ("bulk-in" | "bulk-out", true) => {
                self.line("control-none 1 0 8 0009010000000000")
            }
            ("step-in", _) => self.line(match busy {
                false => "bulk-in 1 1 8 fixed 0 8",
                true => "bulk-out 1 1 8 fixed 0 0102030405060708",
            }),
            ("step-out", _) => self.line(match busy {
                false => "bulk-out 1 1 8 fixed 0 0102030405060708",
                true => "bulk-in 1 1 8 fixed 0 8",
            }),
            ("cancel", false) => self.line("bulk-in 1 1 8 fixed 0 8"),
            ("open", true) => (0..15).try_for_each(|_| self.line("open 1 0 1 8 1")),
            ("poll" | "close", false) => self.line("open 1 0 1 8 1"),
            _ => Ok(()),
        }
    }

    pub fn lend(&mut self, short_packet_memory: bool, short_log: bool) -> io::Result<()> {
        if !short_packet_memory && !short_log {
            return Ok(());
        }
        let packet_memory = if short_packet_memory { 4095 } else { 4096 };
        let log = if short_log { 191 } else { 192 };
        self.line(&format!("lend {packet_memory} {log}"))
    }

    fn faulty(&mut self, call: &str, has: impl Fn(Fault) -> bool) -> io::Result<()> {
        if call.starts_with("step") && has(Length) {
            self.line("buffer 00")?;
        }
        self.line(&faulty_line(call, has))
    }

    /// Lengths lent, with every call; a wrong one changes nothing for cancel and close.
    fn loans(&mut self) -> io::Result<()> {
        for loan in ["0 192", "1 192", "4096 0", "4096 1", "0 0", "4096 192"] {
            self.case(&format!("lend {loan}: every call"))?;
            self.lines(&[
                "open 1 0 1 8 1",
                "bulk-in 1 1 8 fixed 0 8",
                &format!("lend {loan}"),
                "step-in 0 0x10 0x8008",
                "step-out 0 0x10 0x8008",
                "bulk-out 1 1 8 fixed 0 00",
                "control-none 1 0 8 0009010000000000",
                "open 1 0 1 8 1",
                "poll 1 0x8008 1",
                "irq 0x11 4",
                "detect 0x100",
                "close 1",
                "cancel",
                "record",
            ])?;
        }
        Ok(())
    }
}

/// Every fault alone, as a pair with itself, and every two.
pub fn pairs(faults: &[Fault]) -> Vec<[Fault; 2]> {
    let from = |(i, first): (usize, &Fault)| {
        let first = *first;
        faults[i..].iter().map(move |second| [first, *second])
    };
    faults.iter().enumerate().flat_map(from).collect()
}

/// The call's line.
pub fn faulty_line(call: &str, has: impl Fn(Fault) -> bool) -> String {
    let address = if has(Address) { 128 } else { 1 };
    let endpoint = if has(Endpoint) { 16 } else { 1 };
    let size = if has(Size) { 65 } else { 8 };
    let length = if has(Length) { 65_536 } else { 1 };
    let setup = "0009010000000000";
    match call {
        "control-in" => format!("{call} {address} 0 {size} {setup} 1"),
        "control-out" => format!("{call} {address} 0 {size} {setup} 00"),
        "control-none" => format!("{call} {address} 0 {size} {setup}"),
        "bulk-in" => format!("{call} {address} {endpoint} {size} fixed 0 {length}"),
        "bulk-out" => {
            format!("{call} {address} {endpoint} {size} fixed 0 seq:{length}:0:1")
        }
        "step-in" | "step-out" => format!("{call} 0 0x10 0"),
        "open" => format!("{call} {address} 0 {endpoint} {size} 1"),
        "poll" => format!("{call} 1 0x8008 0x00010001"),
        "close" => format!("{call} 1"),
        "irq" => format!("{call} 0x11 4"),
        "detect" => format!("{call} 0x100"),
        _ => call.to_string(),
    }
}
