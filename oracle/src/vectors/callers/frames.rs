//! Frames: which calls bring one, what changes with it, and whose turn it is then.

use super::super::Vectors;
use super::shares::none;
use crate::caller_lines::{coming, shares};
use std::io::{self, Write};

impl<W: Write> Vectors<W> {
    pub fn frames(&mut self) -> io::Result<()> {
        self.numbers()?;
        self.calls_that_find_a_remainder()?;
        self.calls_while_under_way()?;
        self.ends_in_an_old_frame()?;
        self.given_turns()?;
        self.fresh_frames()?;
        self.seven_others_from_when_it_suffices()?;
        self.whole_shares()
    }

    /// In frame 1 caller 0 has spent 3 of 4 bytes and asks for 2 more.
    fn too_small(&mut self, what: &str) -> io::Result<()> {
        self.shared(what, 4)?;
        self.line("frame 1")?;
        self.come_and_start(0, &none(3))?;
        self.line("cancel")?;
        self.come(0, &none(2))
    }

    /// Any other number is another frame, a higher one or not.
    fn numbers(&mut self) -> io::Result<()> {
        self.shared("frames: each number and the next, all spent in each", 1)?;
        for number in [0, 0, 1, 1, 2, 1, 0, u32::MAX, 0, 2047, 2048, 0x8000_0000, 0] {
            self.line(&format!("frame {number}"))?;
            self.line("look")?;
            self.come(4, &none(1))?;
            self.lines(&["look", "start-control -", "cancel", "look"])?;
        }
        Ok(())
    }

    /// 0 is too small in frame 1. A call in frame 2, then a look in each: one that is
    /// refused brings no frame.
    fn calls_that_find_a_remainder(&mut self) -> io::Result<()> {
        let calls = [
            "look".to_string(),
            "start-control -".to_string(),
            "start-control 00".to_string(),
            "start-bulk-in 0".to_string(),
            "start-bulk-out -".to_string(),
            coming(0, &none(1)),
            coming(1, &none(1)),
            coming(1, &none(4)),
            coming(1, &none(5)),
            coming(7, &none(0)),
            coming(8, &none(1)),
            coming(1, "control-none 128 0 8 0009010000000000"),
            coming(1, "bulk-in 5 16 64 fixed 0 1"),
            coming(1, "bulk-in 5 2 65 fixed 0 1"),
            "cancel".to_string(),
            "step-in 0x40000 8 0".to_string(),
            "irq 0x10 1".to_string(),
            "detect 0x100".to_string(),
        ];
        for call in &calls {
            for lend in ["lend 4096 192", "lend 4095 192"] {
                self.too_small(&format!("nobody's turn, then {call}, {lend}"))?;
                self.lines(&["look", "start-control -", lend, "frame 2", call])?;
                self.lines(&["lend 4096 192", "frame 1", "look", "frame 2", "look"])?;
            }
        }
        Ok(())
    }

    /// A call in frame 2 while 0's transfer is under way, 3 of its 4 bytes spent; back in
    /// frame 1 it asks for 2.
    fn calls_while_under_way(&mut self) -> io::Result<()> {
        for call in [
            "look".to_string(),
            coming(1, &none(0)),
            coming(1, &none(5)),
            coming(8, &none(0)),
            coming(0, &none(1)),
            "start-control -".to_string(),
            "step-in 0 0 0".to_string(),
        ] {
            self.shared(&format!("while a transfer is under way: {call}"), 4)?;
            self.line("frame 1")?;
            self.come_and_start(0, &none(3))?;
            self.lines(&["frame 2", &call, "frame 1", "cancel"])?;
            self.come(0, &none(2))?;
            self.lines(&["look", "start-control -", "look", "frame 2", "look"])?;
        }
        Ok(())
    }

    /// 3's transfer ends in frame 1, in which 5 is too small and 6 isn't, or nobody is
    /// large enough. The next call is in frame 2.
    fn ends_in_an_old_frame(&mut self) -> io::Result<()> {
        for waiting in [&[5, 6][..], &[5]] {
            for call in [
                "look".to_string(),
                "start-control -".to_string(),
                "start-bulk-in 0".to_string(),
                coming(4, &none(1)),
                coming(7, &none(1)),
                coming(2, &none(4)),
                coming(5, &none(1)),
            ] {
                let what =
                    format!("{waiting:?} wait as 3's ends in frame 1, then {call}");
                self.shared(&what, 4)?;
                self.line("frame 1")?;
                self.come_and_start(5, &none(3))?;
                self.line("cancel")?;
                self.come_and_start(3, &none(3))?;
                for caller in waiting {
                    self.come(*caller, &none(2))?;
                }
                self.lines(&["cancel", "frame 2", &call, "look", "frame 1", "look"])?;
            }
        }
        Ok(())
    }

    /// A turn stays its caller's, whatever frames come.
    fn given_turns(&mut self) -> io::Result<()> {
        self.too_small("a turn that was given stays in later frames")?;
        self.come(6, &none(4))?;
        self.line("look")?;
        for frame in [2, 3, 1] {
            self.line(&format!("frame {frame}"))?;
            self.come(frame, &none(1))?;
            self.line("look")?;
        }
        for _ in 0..5 {
            self.lines(&["start-control -", "cancel", "look"])?;
        }
        Ok(())
    }

    /// `fresh` and `rule` keep the shares; with them and `shares` the frame is 0 and
    /// nothing is spent.
    fn fresh_frames(&mut self) -> io::Result<()> {
        for fresh in ["fresh", "rule 2", "rule 1", &shares([4; 8])] {
            self.too_small(&format!("frames: {fresh}"))?;
            self.lines(&["look", fresh, "look"])?;
            self.come(0, &none(5))?;
            self.come_and_start(0, &none(3))?;
            self.line("cancel")?;
            self.come(0, &none(2))?;
            self.lines(&["look", "frame 0", "look", "frame 1", "look"])?;
        }
        Ok(())
    }

    /// All eight have spent their shares and come again; in the next frame each has its
    /// turn, whoever comes again at once.
    fn seven_others_from_when_it_suffices(&mut self) -> io::Result<()> {
        for first in [0, 4] {
            let what = format!("all have spent their shares, {first} the first");
            self.shared(&what, 4)?;
            let round = (0..8).map(|after| (first + after) % 8);
            for caller in round.clone() {
                self.come_and_start(caller, &none(4))?;
                self.line("cancel")?;
            }
            for caller in (0..8).rev() {
                self.come(caller, &none(1))?;
            }
            self.lines(&["look", "frame 1", "look"])?;
            for caller in round {
                self.line("start-control -")?;
                self.come(caller, &none(3))?;
                self.lines(&["cancel", "look"])?;
            }
        }
        Ok(())
    }
}
