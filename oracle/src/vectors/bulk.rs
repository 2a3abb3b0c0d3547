//! Bulk transfers from begin to end, with a sound device.

use super::{bulk, lengths, Vectors};
use crate::script::Way;
use std::io::{self, Write};

impl<W: Write> Vectors<W> {
    pub fn bulk(&mut self) -> io::Result<()> {
        for way in [Way::In, Way::Out] {
            for size in [1, 8, 63, 64] {
                for kind in ["fixed", "variable"] {
                    self.every_length(way, size, kind)?;
                }
                self.longest_begun(way, size)?;
            }
        }
        self.short_packets()?;
        self.longest()
    }

    fn every_length(&mut self, way: Way, size: u32, kind: &str) -> io::Result<()> {
        self.case(&format!("bulk {way:?} at {size}, {kind}, every length"))?;
        for (i, length) in lengths(size).into_iter().chain([3 * size + 1]).enumerate() {
            let toggle = i as u32 % 2;
            self.line(&bulk(way, size, kind, toggle, length))?;
            self.finish(2, length)?;
            self.line(&bulk(way, size, kind, 1 - toggle, length))?;
            self.finish(1, length)?;
        }
        self.line("record")
    }

    /// 65,535 bytes: begun, some steps, cancelled; then begun and reported complete.
    fn longest_begun(&mut self, way: Way, size: u32) -> io::Result<()> {
        self.case(&format!("bulk {way:?} of 65,535 at {size}: some steps"))?;
        self.line(&bulk(way, size, "variable", 1, 65_535))?;
        let taken = match way {
            Way::In => (0x8000 | size) << 16 | 0x8000 | size,
            Way::Out => 0,
        };
        for _ in 0..3 {
            self.step(way, 0, 0x10, taken)?;
        }
        self.lines(&["cancel", &bulk(way, size, "fixed", 0, 65_535)])?;
        self.step(way, 0x40000, 8, taken)
    }

    /// A short packet ends an IN: the toggle goes by the packets, not by the length.
    fn short_packets(&mut self) -> io::Result<()> {
        for sent in [0, 1, 7, 8, 9, 15, 16, 17, 23, 24, 25] {
            for toggle in [0, 1] {
                self.case(&format!("bulk In of 40 at 8: the device sends {sent}"))?;
                self.line(&bulk(Way::In, 8, "variable", toggle, 40))?;
                self.finish(2, sent)?;
            }
        }
        Ok(())
    }

    /// IN of 65,535 bytes from begin to end at 64; OUT is played so in record.rs.
    fn longest(&mut self) -> io::Result<()> {
        self.case("bulk In of 65,535 at 64, to the end")?;
        self.line(&bulk(Way::In, 64, "variable", 1, 65_535))?;
        self.finish(2, 65_535)
    }
}
