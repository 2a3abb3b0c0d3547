//! The record: empty, filled to its last byte, and past it.

use super::{bulk, Vectors};
use crate::script::Way;
use std::io::{self, Write};

const SIZE: u32 = 64;

impl<W: Write> Vectors<W> {
    pub fn record(&mut self) -> io::Result<()> {
        self.case("record: empty, and after an IN that sends nothing")?;
        self.lines(&["record", &bulk(Way::In, 8, "fixed", 0, 8), "record"])?;
        self.full_record()?;
        self.one_byte_short()
    }

    /// 1,024 packets of 65,535 bytes, 849 of 54,289 and a count fill the record's 131,072
    /// bytes: 5 + 1,024 × 6 + 65,535 + 849 × 6 + 54,289 + 5.
    fn full_record(&mut self) -> io::Result<()> {
        self.case("record: bulk Out of 65,535 at 64")?;
        self.line("bulk-out 5 2 64 variable 1 seq:65535:1:2")?;
        self.finish(2, 0)?;
        self.line("# record: of 54,289 at 64, all armed, and a stall: exactly full")?;
        self.arm_all(54_289)?;
        self.step(Way::Out, 0x2000_0000, 0x400, 0)?;
        self.lines(&[
            "record",
            "# record: a begin that arms nothing",
            "bulk-in 5 2 8 fixed 0 8",
            "cancel",
            "record",
            "# record: refused until it is emptied",
            "bulk-out 5 2 8 fixed 0 -",
            "step-out 0x40000 8 0",
            "record",
            "fresh",
            "record",
        ])
    }

    /// 1,041 packets of 65,535 bytes and 847 of 54,200 leave 4 bytes for a count.
    fn one_byte_short(&mut self) -> io::Result<()> {
        self.case("record: bulk Out of 65,535 at 63")?;
        self.line("bulk-out 5 2 63 fixed 0 seq:65535:1:128")?;
        self.finish(2, 0)?;
        self.line("# record: of 54,200 at 64, all armed: one byte too few for a count")?;
        self.arm_all(54_200)?;
        self.lines(&["cancel", "record", "fresh", "record"])
    }

    /// Arms all packets of a bulk OUT. Each step is lent bytes of its own that make its
    /// packets all 0: packet memory stays as it is, which keeps the output short. So do
    /// the STEPs of the bytes above, for most steps.
    fn arm_all(&mut self, length: u32) -> io::Result<()> {
        self.line(&format!("bulk-out 5 2 {SIZE} fixed 0 seq:{length}:0:0"))?;
        for offset in (2 * SIZE..length).step_by(2 * SIZE as usize) {
            let start = (offset / 256).wrapping_neg() % 256;
            self.line(&format!("buffer seq:{length}:{start}:0"))?;
            self.step(Way::Out, 0, 0x10, 0)?;
        }
        Ok(())
    }
}
