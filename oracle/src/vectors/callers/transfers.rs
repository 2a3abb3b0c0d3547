//! Transfers that come, start and are played to their end, with a sound device.

use super::super::Vectors;
use super::BULK_OUT;
use std::io::{self, Write};

/// One for each caller.
const BEGINS: [&str; 8] = [
    "control-in 1 1 8 8006000100001400 20",
    "bulk-out 2 15 64 variable 1 seq:64:9:1",
    "control-none 3 0 8 0005070000000000",
    "bulk-in 4 1 64 variable 0 130",
    "control-out 127 1 64 2109000000000300 010203",
    "bulk-out 5 4 1 fixed 0 a1b2c3",
    "bulk-in 6 8 8 fixed 1 20",
    "control-in 0 0 64 c001020304050000 0",
];

impl<W: Write> Vectors<W> {
    pub fn transfers(&mut self) -> io::Result<()> {
        for (caller, begin) in (0..).zip(BEGINS) {
            self.case(&format!("caller {caller}, to the end: {begin}"))?;
            self.come_and_start(caller, begin)?;
            self.finish(2, 200)?;
            self.lines(&["look", "record"])?;
        }
        for first in [0, 5] {
            self.all_in_turn(first)?;
        }
        self.bytes_lent_to_an_in()?;
        self.broken_off()
    }

    /// Each starts with what it came with.
    fn all_in_turn(&mut self, first: u64) -> io::Result<()> {
        self.case(&format!("eight callers, {first} the first"))?;
        let round = (0..8).map(|after| (first + after) % 8);
        for caller in round.clone() {
            self.come(caller, BEGINS[caller as usize])?;
        }
        for caller in round {
            self.line("look")?;
            self.start(BEGINS[caller as usize])?;
            self.finish(2, 200)?;
        }
        self.lines(&["look", "record"])
    }

    /// A control In's buffer has the bytes lent until others are received.
    fn bytes_lent_to_an_in(&mut self) -> io::Result<()> {
        self.case("control In: the bytes lent, of which some are received again")?;
        self.come(3, "control-in 9 0 8 8006000100001400 22")?;
        self.lines(&[
            "start-control seq:22:1:1",
            "step-in 0x40000 8 0",
            "pm 0x180 0102ff0405060708",
            "pm 0x1c0 090a0b0c0d0e0fff",
            "step-in 0 0x10 0x80088008",
            "pm 0x180 11121314",
            "step-in 0x40000 0x18 0x04008004",
            "step-in 0x40000 8 0",
            "look",
        ])
    }

    /// Under both desk rules: the toggle, and the record of one that failed among whole
    /// ones.
    fn broken_off(&mut self) -> io::Result<()> {
        for rule in ["rule 2", "rule 1"] {
            self.line(&format!("# a stall and a cancel of a bulk OUT, {rule}"))?;
            self.line(rule)?;
            for end in ["step-out 0x20000000 0x400 0", "cancel"] {
                self.come_and_start(4, BULK_OUT)?;
                self.come(1, BEGINS[4])?;
                self.lines(&["step-out 0 0x10 0x84000000", end, "look", "record"])?;
                self.start(BEGINS[4])?;
                self.finish(1, 0)?;
            }
            self.line("record")?;
        }
        Ok(())
    }
}
