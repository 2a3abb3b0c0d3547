//! Begins: the limits of each field, and what is written for each kind and length.

use super::{bulk, lengths, Vectors};
use crate::script::{Format, Way};
use std::io::{self, Write};

impl<W: Write> Vectors<W> {
    pub fn begins(&mut self) -> io::Result<()> {
        self.fields()?;
        self.setups()?;
        self.bulk_begins()
    }

    /// Each of these is begun or refused; a cancel lets the next be begun.
    fn fields(&mut self) -> io::Result<()> {
        self.case("begin: the limits of each field")?;
        for address in [0, 1, 126, 127, 128, 255] {
            self.try_begin(&format!("control-none {address} 0 8 0102030405060708"))?;
            self.try_begin(&format!("bulk-in {address} 1 8 fixed 0 0"))?;
        }
        for endpoint in [0, 1, 2, 14, 15, 16, 17, 128, 255] {
            self.try_begin(&format!("bulk-in 1 {endpoint} 8 fixed 0 8"))?;
            self.try_begin(&format!("bulk-out 1 {endpoint} 8 fixed 0 00"))?;
        }
        for size in [0, 1, 2, 63, 64, 65, 128, 255] {
            self.try_begin(&format!("control-in 1 0 {size} 0000000000000100 1"))?;
        }
        for size in [0, 1, 2, 63, 64, 65, 128, 255, 256, 257, 320, 65_535] {
            self.try_begin(&format!("bulk-in 1 1 {size} fixed 0 1"))?;
            self.try_begin(&format!("bulk-out 1 1 {size} fixed 0 00"))?;
        }
        for length in [65_534, 65_535, 65_536, 65_537, 131_072] {
            self.try_begin(&format!("bulk-in 1 1 64 fixed 0 {length}"))?;
            self.try_begin(&format!("bulk-out 1 1 64 fixed 0 seq:{length}:0:1"))?;
            self.try_begin(&format!("control-in 1 0 64 0000000000000000 {length}"))?;
        }
        Ok(())
    }

    fn try_begin(&mut self, begin: &str) -> io::Result<()> {
        match self.player.format {
            Format::Replay => self.line(begin)?,
            Format::Callers => self.come_and_start(0, begin)?,
        }
        self.line("cancel")
    }

    /// Every byte of a SETUP, and both preambles.
    fn setups(&mut self) -> io::Result<()> {
        self.case("begin: SETUP's bytes and the preamble")?;
        for setup in [
            "0000000000000000",
            "ffffffffffffffff",
            "0123456789abcdef",
            "0100000000000000",
            "0080000000000000",
            "0000010000000000",
            "0000008000000000",
            "0000000001000000",
            "0000000000800000",
            "0000000000000100",
            "0000000000000080",
        ] {
            self.try_begin(&format!("control-none 7 0 8 {setup}"))?;
        }
        for preamble in [0, 1] {
            self.try_begin(&format!("control-in 7 {preamble} 8 8006000100001200 18"))?;
            self.try_begin(&format!("control-out 7 {preamble} 8 2109000000000200 0102"))?;
            self.try_begin(&format!("control-none 7 {preamble} 8 0009010000000000"))?;
            self.try_begin("bulk-in 7 1 8 fixed 0 8")?;
        }
        self.line("record")
    }

    fn bulk_begins(&mut self) -> io::Result<()> {
        for way in [Way::In, Way::Out] {
            for size in [1, 8, 63, 64] {
                self.case(&format!("begin: bulk {way:?} at {size}, every length"))?;
                for length in lengths(size).into_iter().chain([2 * size + 1]) {
                    for (kind, toggle) in [("fixed", 0), ("variable", 1)] {
                        self.try_begin(&bulk(way, size, kind, toggle, length))?;
                    }
                }
                self.line("record")?;
            }
        }
        Ok(())
    }
}
