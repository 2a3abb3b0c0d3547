//! Shares: what is too large, what is too small for now, and who is passed over.

use super::super::Vectors;
use super::COMPLETE_IN;
use crate::caller_lines::shares;
use std::io::{self, Write};

/// A control that asks for so many bytes, and is lent none.
pub fn none(bytes: u16) -> String {
    let [low, high] = bytes.to_le_bytes();
    format!("control-none 5 0 8 000901000000{low:02x}{high:02x}")
}

fn bulk_in(bytes: u32) -> String {
    format!("bulk-in 5 2 64 fixed 0 {bytes}")
}

impl<W: Write> Vectors<W> {
    pub fn shares(&mut self) -> io::Result<()> {
        self.largest_comings()?;
        self.what_a_control_asks_for()?;
        self.remainders()?;
        self.passed_over()?;
        self.own_shares()?;
        self.charged_in_full()?;
        self.nothing_of_nothing()?;
        self.whole_shares()
    }

    /// What follows, on a fresh driver with these shares.
    pub fn shared(&mut self, what: &str, each: u32) -> io::Result<()> {
        self.line(&format!("# {what}"))?;
        self.line(&shares([each; 8]))
    }

    pub fn whole_shares(&mut self) -> io::Result<()> {
        self.shared("as at the start", u32::MAX)
    }

    /// Transfers of a byte less than the share, of the share, and of a byte more.
    fn largest_comings(&mut self) -> io::Result<()> {
        for share in [0, 1, 2, 63, 64, 65, 65_534, 65_535, 65_536, u32::MAX] {
            self.shared(&format!("come: shares of {share}"), share)?;
            for bytes in [share.saturating_sub(1), share, share.saturating_add(1)] {
                self.line("fresh")?;
                if let Ok(bytes) = u16::try_from(bytes) {
                    self.come(0, &none(bytes))?;
                }
                if bytes <= 131_072 {
                    self.come(1, &bulk_in(bytes))?;
                    let begin = format!("bulk-out 5 2 64 fixed 0 seq:{bytes}:0:0");
                    self.come(2, &begin)?;
                }
                self.line("look")?;
            }
        }
        Ok(())
    }

    /// wLength, whatever its buffer and its phase.
    fn what_a_control_asks_for(&mut self) -> io::Result<()> {
        for (phase, last) in [("in", " 0"), ("in", " 131072"), ("none", "")] {
            for length in ["0400", "0500", "0001", "ff00"] {
                let what = format!("come: control {phase}, wLength {length}");
                self.shared(&what, 4)?;
                let setup = format!("000901000000{length}");
                self.line(&format!("come 6 control-{phase} 5 0 8 {setup}{last}"))?;
                self.line("look")?;
            }
        }
        self.shared("come: control out, a buffer longer than wLength", 4)?;
        self.line("come 6 control-out 5 0 8 2109000000000400 65536")?;
        self.line("look")
    }

    /// A start leaves the share less what it asked for, until another frame.
    fn remainders(&mut self) -> io::Result<()> {
        for first in 0..=4 {
            for second in 0..=4 {
                self.shared(&format!("shares of 4: {first}, then {second}"), 4)?;
                self.come_and_start(2, &bulk_in(first))?;
                self.line(COMPLETE_IN)?;
                self.come(2, &bulk_in(second))?;
                self.line("look")?;
                self.start(&bulk_in(second))?;
                self.lines(&["frame 1", "look"])?;
                self.start(&bulk_in(second))?;
            }
        }
        Ok(())
    }

    /// Those next above the one that ends are too small: some, all others, itself too.
    fn passed_over(&mut self) -> io::Result<()> {
        for ended in [0, 3, 7] {
            for small in 0..=8 {
                let what = format!("{ended}'s ends, the next {small} too small");
                self.shared(&what, 2)?;
                let round: Vec<u64> = (1..=8).map(|above| (ended + above) % 8).collect();
                let (small, large) = round.split_at(small);
                for caller in small.iter().filter(|caller| **caller != ended) {
                    self.come_and_start(*caller, &none(2))?;
                    self.line("cancel")?;
                }
                let own = if small.contains(&ended) { 2 } else { 0 };
                self.come_and_start(ended, &none(own))?;
                for caller in small {
                    self.come(*caller, &none(1))?;
                }
                for caller in large {
                    self.come(*caller, &none(0))?;
                }
                self.lines(&["cancel", "look", "frame 1", "look"])?;
            }
        }
        Ok(())
    }

    /// Each caller has its own, and spends no other's.
    fn own_shares(&mut self) -> io::Result<()> {
        self.line("# each caller's own share: what is asked for, and a byte more")?;
        self.line(&shares([7, 0, 3, 65_535, 1, 64, u32::MAX, 2]))?;
        for (caller, share) in (0..).zip([7, 0, 3, 65_535, 1, 64, 65_535, 2]) {
            if share < 65_535 {
                self.come(caller, &none(share + 1))?;
            }
            self.come(caller, &none(share))?;
        }
        for _ in 0..8 {
            self.lines(&["look", "start-control -", "cancel"])?;
        }
        for caller in 0..8 {
            self.come(caller, &none(1))?;
            self.line("look")?;
        }
        self.lines(&["start-control -", "cancel", "look", "frame 1", "look"])
    }

    /// Whatever was received, and if it fails or is cancelled.
    fn charged_in_full(&mut self) -> io::Result<()> {
        for end in [
            "step-in 0x40000 0x18 0x8001",
            COMPLETE_IN,
            "step-in 0x20000000 0x400 0",
            "cancel",
        ] {
            self.shared(&format!("charged in full: {end}"), 65)?;
            self.come_and_start(1, &bulk_in(64))?;
            self.line(end)?;
            self.come(1, &bulk_in(2))?;
            self.lines(&["look", "frame 1", "look"])?;
        }
        Ok(())
    }

    /// A share of 0 suffices for no bytes, as often as they come.
    fn nothing_of_nothing(&mut self) -> io::Result<()> {
        self.shared("shares of 0: no bytes", 0)?;
        for caller in 0..8 {
            self.come(caller, &none(1))?;
            self.come(caller, &none(0))?;
        }
        for caller in [0, 1, 2, 3, 4, 5, 6, 7, 0] {
            self.lines(&["look", "start-control -"])?;
            self.come(caller, &none(0))?;
            self.line("cancel")?;
        }
        Ok(())
    }
}
