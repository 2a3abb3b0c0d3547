//! Starts: every fault alone and every two, every kind and length against what came.

use super::super::refusals::{pairs, Fault};
use super::super::Vectors;
use super::{BULK_OUT, NONE, SHORT};
use crate::caller_lines::start;
use std::io::{self, Write};
use Fault::{Busy, Caller, Kind, Length, Log, PacketMemory};

const IN: &str = "control-in 9 0 8 8006000100000200 2";
const OUT: &str = "control-out 9 0 8 2109000000000200 0102";
const BULK_IN_2: &str = "bulk-in 5 2 8 fixed 0 2";
const BULK_OUT_2: &str = "bulk-out 5 2 8 fixed 0 0102";

impl<W: Write> Vectors<W> {
    pub fn starts(&mut self) -> io::Result<()> {
        for begin in [IN, OUT, BULK_IN_2, BULK_OUT_2] {
            self.faulty_starts(begin)?;
        }
        self.kinds()?;
        self.lengths_lent()?;
        self.longest_buffers()?;
        self.used_up_by_steps_alone()
    }

    /// A refused start leaves everything as it is: the right one follows.
    fn faulty_starts(&mut self, begin: &str) -> io::Result<()> {
        for pair in pairs(&[PacketMemory, Log, Busy, Caller, Kind, Length]) {
            let has = |fault| pair.contains(&fault);
            self.case(&format!("start of {begin}: {:?}, {:?}", pair[0], pair[1]))?;
            if has(Busy) {
                self.come_and_start(1, BULK_OUT)?;
            }
            if !has(Caller) {
                self.come(3, begin)?;
            }
            self.lend(has(PacketMemory), has(Log))?;
            self.line(&faulty_start(begin, has))?;
            self.lines(&["lend 4096 192", "look", "cancel", "look"])?;
            self.start(begin)?;
            self.lines(&["cancel", "record"])?;
        }
        Ok(())
    }

    /// Three kinds: a control's phase makes no difference.
    fn kinds(&mut self) -> io::Result<()> {
        for begin in [IN, OUT, BULK_IN_2, BULK_OUT_2] {
            for other in [IN, BULK_IN_2, BULK_OUT_2] {
                self.case(&format!("{begin}: {}", start(other)))?;
                self.come(6, begin)?;
                self.start(other)?;
                self.line("look")?;
            }
        }
        for other in ["start-control -", "start-bulk-in 0", "start-bulk-out -"] {
            self.case(&format!("{NONE}: {other}"))?;
            self.come(6, NONE)?;
            self.lines(&[other, "look"])?;
        }
        Ok(())
    }

    fn lengths_lent(&mut self) -> io::Result<()> {
        for length in [0, 1, 2, 64, 65, 256, 65_535] {
            for begin in [
                format!("control-in 9 0 8 8006000100000200 {length}"),
                format!("control-out 9 0 8 2109000000000200 seq:{length}:0:0"),
                format!("bulk-in 5 2 8 fixed 0 {length}"),
                format!("bulk-out 5 2 8 fixed 0 seq:{length}:0:0"),
            ] {
                self.case(&format!("{begin}: every length but its own, then that"))?;
                self.come(0, &begin)?;
                for other in [0, 1, 2, length + 1, length + 256, length + 65_536] {
                    if other != length {
                        self.start(&with_length(&begin, other))?;
                    }
                }
                self.lines(&["look", &start(&begin), "cancel"])?;
            }
        }
        self.case("control None: nothing but an empty buffer")?;
        self.come(0, NONE)?;
        self.lines(&["start-control 00", "start-control seq:131072:0:0"])?;
        self.start(NONE)
    }

    /// A control's buffer may be as long as a script's.
    fn longest_buffers(&mut self) -> io::Result<()> {
        self.case("control: buffers above 65,535 bytes")?;
        for length in [65_536, 131_071, 131_072] {
            for begin in [
                format!("control-in 9 0 64 800600010000ffff {length}"),
                format!("control-out 9 0 64 210900000000ffff seq:{length}:0:0"),
            ] {
                self.come(7, &begin)?;
                self.start(&with_length(&begin, length - 65_536))?;
                self.lines(&[&start(&begin), "cancel"])?;
            }
        }
        Ok(())
    }

    /// A `buffer` line waits for the next step; a refused start leaves the steps the
    /// buffer of the last that was not.
    fn used_up_by_steps_alone(&mut self) -> io::Result<()> {
        self.case("comings, looks and starts use up no buffer line")?;
        self.come(2, BULK_OUT)?;
        self.lines(&["buffer seq:20:200:1", "look"])?;
        self.come(3, SHORT)?;
        self.lines(&["start-bulk-out 00", &start(BULK_OUT)])?;
        self.lines(&["start-bulk-out 00", "start-bulk-in 0", "look"])?;
        self.lines(&["step-out 0 0x10 0", "step-out 0 0x10 0", "cancel", "record"])
    }
}

/// The start of a begin's line, with these faults of its own.
fn faulty_start(begin: &str, has: impl Fn(Fault) -> bool) -> String {
    let length = if has(Length) { 3 } else { 2 };
    match (begin, has(Kind)) {
        (BULK_IN_2, false) | (BULK_OUT_2, true) => format!("start-bulk-in {length}"),
        (BULK_OUT_2, false) | (IN, true) => format!("start-bulk-out seq:{length}:1:1"),
        _ => format!("start-control seq:{length}:1:1"),
    }
}

/// The same begin with a buffer of another length.
fn with_length(begin: &str, length: u32) -> String {
    let (fields, buffer) = begin.rsplit_once(' ').expect("a begin has fields");
    match buffer.starts_with("seq") {
        true => format!("{fields} seq:{length}:0:0"),
        false => format!("{fields} {length}"),
    }
}
