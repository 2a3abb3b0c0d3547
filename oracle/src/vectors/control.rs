//! Control transfers from begin to end, with a sound device.

use super::{lengths, Vectors};
use std::io::{self, Write};

impl<W: Write> Vectors<W> {
    pub fn control(&mut self) -> io::Result<()> {
        for size in [1, 8, 63, 64] {
            self.every_length_of_control(size)?;
        }
        self.asked_and_lent()?;
        self.none_with_length()?;
        self.one_after_the_other()?;
        self.longest_asked()
    }

    fn every_length_of_control(&mut self, size: u32) -> io::Result<()> {
        self.case(&format!("control In and Out at {size}, every length"))?;
        for length in lengths(size).into_iter().chain([3 * size + 1]) {
            self.line(&control_in(size, length, length))?;
            self.finish(2, length)?;
            self.line(&control_out(size, length, length))?;
            self.finish(1, 0)?;
        }
        self.line("record")
    }

    /// wLength less than the buffer, equal, and more: 7 when SETUP is done.
    fn asked_and_lent(&mut self) -> io::Result<()> {
        for (asked, lent) in [
            (0, 1),
            (1, 0),
            (7, 8),
            (8, 7),
            (8, 9),
            (8, 16),
            (15, 16),
            (15, 40),
            (16, 17),
            (17, 16),
            (17, 17),
            (16, 40),
            (65_535, 40),
        ] {
            self.case(&format!("control: wLength {asked}, {lent} lent"))?;
            self.line(&control_in(8, asked, lent))?;
            self.finish(1, asked)?;
            self.line(&control_out(8, asked, lent))?;
            self.finish(1, 0)?;
            self.line("record")?;
        }
        // More than asked for is not kept.
        self.case("control In: the device sends more than wLength")?;
        self.lines(&[
            &control_in(8, 4, 20),
            "step-in 0x40000 8 0",
            "pm 0x180 seq:64:1:1",
            "step-in 0x40000 8 0x8008",
            "step-in 0x40000 8 0",
        ])
    }

    fn none_with_length(&mut self) -> io::Result<()> {
        for length in [0, 5, 65_535] {
            self.case(&format!("control None: wLength {length}"))?;
            self.line(&format!("control-none 9 1 8 {}", setup(0x21, length)))?;
            self.finish(1, 0)?;
            self.line("record")?;
        }
        Ok(())
    }

    /// The preamble of the last SETUP stays for the bulk transfers after it.
    fn one_after_the_other(&mut self) -> io::Result<()> {
        self.case("transfers one after the other, to several devices")?;
        for begin in [
            "control-in 1 1 8 8006000100000800 8",
            "bulk-in 2 1 64 fixed 0 64",
            "bulk-out 2 15 64 variable 1 seq:64:9:1",
            "control-out 127 0 64 2109000000000300 010203",
            "bulk-out 3 4 64 fixed 0 -",
            "control-none 0 0 8 0005070000000000",
            "bulk-in 7 8 1 variable 1 0",
        ] {
            self.line(begin)?;
            self.finish(2, 64)?;
        }
        self.line("record")
    }

    /// The longest wLength: some steps, then the data stage is reported complete.
    fn longest_asked(&mut self) -> io::Result<()> {
        self.case("control In and Out: wLength 65,535")?;
        self.line(&control_in(64, 65_535, 65_535))?;
        self.lines(&[
            "step-in 0x40000 8 0",
            "pm 0x180 seq:128:1:1",
            "step-in 0 0x10 0x80408040",
            "step-in 0 0x10 0x80408040",
            "step-in 0x40000 8 0x80408040",
            "step-in 0x40000 8 0",
        ])?;
        self.line(&control_out(64, 65_535, 65_536))?;
        self.lines(&[
            "step-out 0x40000 8 0",
            "step-out 0 0x10 0",
            "step-out 0x40000 8 0",
            "step-out 0x40000 8 0x8000",
            "record",
        ])
    }
}

fn control_in(size: u32, asked: u32, lent: u32) -> String {
    format!("control-in 9 0 {size} {} {lent}", setup(0x80, asked))
}

fn control_out(size: u32, asked: u32, lent: u32) -> String {
    format!(
        "control-out 9 0 {size} {} seq:{lent}:1:1",
        setup(0x21, asked)
    )
}

/// A SETUP with this bmRequestType and wLength.
fn setup(kind: u8, length: u32) -> String {
    let [low, high, ..] = length.to_le_bytes();
    format!("{kind:02x}0900010000{low:02x}{high:02x}")
}
