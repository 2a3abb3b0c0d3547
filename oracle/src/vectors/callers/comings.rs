//! Comings: every fault alone and every two, and what a coming has nothing to do with.

use super::super::refusals::{faulty_line, pairs, Fault};
use super::super::Vectors;
use super::{BULK_OUT, COMPLETE_OUT, NONE, SHORT};
use crate::caller_lines::shares;
use std::io::{self, Write};
use Fault::{Address, Busy, Caller, Endpoint, Length, Share, Size};

impl<W: Write> Vectors<W> {
    pub fn comings(&mut self) -> io::Result<()> {
        for begin in ["control-in", "control-out", "control-none"] {
            self.faulty_comings(begin, &[Caller, Busy, Share, Address, Size])?;
        }
        for begin in ["bulk-in", "bulk-out"] {
            let all = [Caller, Busy, Share, Address, Endpoint, Size, Length];
            self.faulty_comings(begin, &all)?;
        }
        self.every_caller()?;
        self.refused_comings()?;
        self.comings_while_under_way()?;
        self.comings_lent_nothing()
    }

    /// Caller 3 waits, or nobody; a refused coming leaves that as it is.
    fn faulty_comings(&mut self, begin: &str, faults: &[Fault]) -> io::Result<()> {
        for pair in pairs(faults) {
            let has = |fault| pair.contains(&fault);
            self.line(&format!("# come {begin}: {:?}, {:?}", pair[0], pair[1]))?;
            self.line(&shares([if has(Share) { 0 } else { u32::MAX }; 8]))?;
            if has(Busy) {
                self.come(3, NONE)?;
            }
            let caller = if has(Caller) { 8 } else { 3 };
            self.come(caller, &asking(&faulty_line(begin, has)))?;
            self.line("look")?;
        }
        Ok(())
    }

    fn every_caller(&mut self) -> io::Result<()> {
        self.case("come: every caller, once and again")?;
        for _ in 0..2 {
            for caller in (0..=16).chain([31, 32, 127, 128, 254, 255]) {
                self.come(caller, SHORT)?;
            }
        }
        self.line("look")
    }

    /// A refused coming gets no turn, and doesn't keep its caller from coming.
    fn refused_comings(&mut self) -> io::Result<()> {
        self.case("come: refused, then others come, then the same caller")?;
        self.come(2, "bulk-in 128 1 8 fixed 0 0")?;
        self.line("look")?;
        self.come(9, SHORT)?;
        self.line("look")?;
        self.come(5, SHORT)?;
        self.line("look")?;
        self.come(2, SHORT)?;
        self.line("look")?;
        self.case("come: a second coming's fields don't take the first's place")?;
        self.come(2, "bulk-out 5 2 8 fixed 0 010203")?;
        self.come(2, BULK_OUT)?;
        self.lines(&[
            "start-bulk-out seq:20:1:1",
            "start-bulk-out 010203",
            "cancel",
        ])
    }

    /// 8 no longer occurs, and the caller whose transfer runs may come again, once.
    fn comings_while_under_way(&mut self) -> io::Result<()> {
        self.case("come: while a transfer is under way")?;
        self.come_and_start(4, BULK_OUT)?;
        for caller in [4, 4, 0, 0] {
            self.come(caller, SHORT)?;
            self.line("look")?;
        }
        self.come(1, "bulk-in 1 16 8 fixed 0 0")?;
        self.lines(&[COMPLETE_OUT, "look", "record"])
    }

    /// Nothing is lent to a coming or a look: no 15.
    fn comings_lent_nothing(&mut self) -> io::Result<()> {
        self.case("come and look: lent nothing")?;
        self.line("lend 0 0")?;
        self.come(4, NONE)?;
        self.line("look")?;
        self.start(NONE)?;
        self.lines(&["look", "lend 4096 192"])?;
        self.start(NONE)
    }
}

/// A control's wLength is 2.
fn asking(begin: &str) -> String {
    begin.replace("0009010000000000", "0009010000000200")
}
