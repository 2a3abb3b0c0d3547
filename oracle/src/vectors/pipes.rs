//! Interrupt pipes, the interrupt routine and detection.

use super::slots::all_flags;
use super::Vectors;
use std::io::{self, Write};

impl<W: Write> Vectors<W> {
    pub fn pipes(&mut self) -> io::Result<()> {
        self.opens()?;
        self.all_pipes()?;
        self.poll_lengths()?;
        self.poll_samples()?;
        self.interrupt_routine()?;
        self.detection()
    }

    fn opens(&mut self) -> io::Result<()> {
        self.case("open: every field")?;
        for fields in [
            "0 0 1 8 1",
            "127 0 1 8 1",
            "128 0 1 8 1",
            "255 0 1 8 1",
            "1 1 1 8 1",
            "1 0 0 8 1",
            "1 0 15 8 1",
            "1 0 16 8 1",
            "1 0 255 8 1",
            "1 0 1 0 1",
            "1 0 1 1 1",
            "1 0 1 63 1",
            "1 0 1 64 1",
            "1 0 1 65 1",
            "1 0 1 320 1",
            "1 0 1 65535 1",
            "1 0 1 8 0",
            "1 0 1 8 8",
            "1 0 1 8 9",
            "1 0 1 8 10",
            "1 0 1 8 255",
        ] {
            self.line(&format!("open {fields}"))?;
        }
        Ok(())
    }

    /// All fifteen opened, each woken and polled, closed in another order and opened again.
    fn all_pipes(&mut self) -> io::Result<()> {
        self.case("pipes: all fifteen, the sixteenth, closed ones used again")?;
        for n in 1..=15 {
            self.line(&format!("poll {n} 0x8008 0"))?;
            self.line(&format!("open {n} {} {n} {} {n}", n % 2, 4 * n))?;
            self.line(&format!("pm {:#x} seq:128:{n}:1", 0x200 + 128 * n))?;
        }
        self.line("open 1 0 1 8 1")?;
        for n in 1..=15 {
            let host_addr_endp = n << 16 | (100 + n);
            self.line(&format!("poll {n} 0 {host_addr_endp:#x}"))?;
            self.line(&format!("irq 0x10 {:#x}", 1u32 << (2 * n)))?;
            self.line(&format!("poll {n} 0x8010 {host_addr_endp:#x}"))?;
            self.line(&format!("poll {n} 0x8010 {host_addr_endp:#x}"))?;
        }
        for n in [4, 15, 1, 8, 2] {
            self.line(&format!("close {n}"))?;
            self.line(&format!("close {n}"))?;
            self.line(&format!("poll {n} 0x8010 0"))?;
        }
        for size in [1, 2, 3, 4, 5, 6] {
            self.line(&format!("open 9 0 9 {size} 3"))?;
        }
        for n in [0, 1, 2, 4, 8, 15, 16, 17, 31, 32, 33, 255] {
            self.line(&format!("poll {n} 0x8010 0x00030007"))?;
        }
        for n in [0, 16, 17, 31, 32, 255] {
            self.line(&format!("close {n}"))?;
        }
        self.line("record")
    }

    fn poll_lengths(&mut self) -> io::Result<()> {
        self.case("poll: lengths 0 to 65, and some above")?;
        self.lines(&["open 1 0 1 8 1", "pm 0x280 seq:128:1:1"])?;
        for length in (0..=65).chain([127, 128, 512, 1023]) {
            self.line(&format!("poll 1 {:#x} 0x00010001", 0x8000 | length))?;
        }
        Ok(())
    }

    /// Both slots' flags, and every bit of the two registers alone, with and without FULL.
    fn poll_samples(&mut self) -> io::Result<()> {
        self.case("poll: all flags, every bit of its registers")?;
        self.lines(&["open 1 0 1 8 1", "pm 0x280 seq:128:1:1"])?;
        for flags in all_flags() {
            self.line(&format!("poll 1 {:#x} 0x00010001", flags | 0x0003_0005))?;
        }
        for bit in 0..32 {
            let bit = 1u32 << bit;
            self.line(&format!("poll 1 {bit:#x} 0"))?;
            self.line(&format!("poll 1 {:#x} 0", bit | 0x8001))?;
            self.line(&format!("poll 1 0x8001 {bit:#x}"))?;
        }
        self.line("poll 1 0xffffffff 0xffffffff")
    }

    fn interrupt_routine(&mut self) -> io::Result<()> {
        self.case("irq: every bit of INTS and of BUFF_STATUS")?;
        for bit in 0..32 {
            let bit = 1u32 << bit;
            self.line(&format!("irq {bit:#x} 0"))?;
            self.line(&format!("irq {bit:#x} 0xffffffff"))?;
            self.line(&format!("irq 0 {bit:#x}"))?;
            self.line(&format!("irq 0x10 {bit:#x}"))?;
        }
        self.lines(&[
            "irq 0 0",
            "irq 0x10 0",
            "irq 0x11 0xc",
            "irq 0x7f8 0x30",
            "irq 0x7e8 0x30",
            "irq 0xffffffff 0xffffffff",
            "irq 0xfffff807 0xffffffff",
        ])
    }

    /// Every speed after every speed, with and without the other bits.
    fn detection(&mut self) -> io::Result<()> {
        self.case("detect: every speed after every speed")?;
        for before in 0..4u32 {
            for after in 0..4u32 {
                self.line(&format!("detect {:#x}", before << 8))?;
                self.line(&format!("detect {:#x}", 0xffff_fcff | after << 8))?;
            }
        }
        for speed in 0..4 {
            self.case(&format!("detect: a fresh driver, speed {speed}"))?;
            self.line(&format!("detect {:#x}", speed << 8))?;
            self.line(&format!("detect {:#x}", speed << 8))?;
        }
        Ok(())
    }
}
