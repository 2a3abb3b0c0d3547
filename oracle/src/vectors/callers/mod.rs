//! Callers: who may come, whose turn it is, what starts.

mod comings;
mod ends;
mod frames;
mod shares;
mod starts;
mod transfers;
mod turns;

use super::Vectors;
use crate::caller_lines::{coming, start};
use std::io::{self, Write};

/// The shortest to write down.
const SHORT: &str = "bulk-in 1 1 1 fixed 0 0";
/// The shortest to start.
const NONE: &str = "control-none 5 0 8 0009010000000000";
const BULK_OUT: &str = "bulk-out 5 2 8 variable 1 seq:20:1:1";

const COMPLETE_IN: &str = "step-in 0x40000 8 0";
const COMPLETE_OUT: &str = "step-out 0x40000 8 0";

impl<W: Write> Vectors<W> {
    pub fn callers(&mut self) -> io::Result<()> {
        self.comings()?;
        self.starts()?;
        self.turns()?;
        self.ends()?;
        self.transfers()?;
        self.shares()?;
        self.frames()
    }

    /// The transfer of a begin's line comes.
    fn come(&mut self, caller: u64, begin: &str) -> io::Result<()> {
        self.line(&coming(caller, begin))
    }

    fn come_all(&mut self, callers: &[u64]) -> io::Result<()> {
        callers
            .iter()
            .try_for_each(|caller| self.come(*caller, SHORT))
    }

    /// The transfer of a begin's line starts, if it has the turn.
    fn start(&mut self, begin: &str) -> io::Result<()> {
        self.line(&start(begin))
    }

    pub fn come_and_start(&mut self, caller: u64, begin: &str) -> io::Result<()> {
        self.come(caller, begin)?;
        self.start(begin)
    }
}
