//! Whose turn it is: the first to come, and at each end the next higher number that
//! waits, going round after 7.

use super::super::Vectors;
use super::{COMPLETE_IN, NONE, SHORT};
use std::io::{self, Write};

impl<W: Write> Vectors<W> {
    pub fn turns(&mut self) -> io::Result<()> {
        self.first_to_come()?;
        self.every_crowd()?;
        self.newcomers()?;
        self.round_and_round()?;
        self.seven_others()?;
        self.fresh_dispatchers()
    }

    /// Whoever comes second doesn't take the turn, nor whoever comes third.
    fn first_to_come(&mut self) -> io::Result<()> {
        for first in 0..8 {
            for second in (0..8).filter(|second| *second != first) {
                self.case(&format!("{first} comes, then {second}"))?;
                self.come_all(&[first])?;
                self.line("look")?;
                self.come_all(&[second])?;
                self.line("look")?;
                self.come_all(&[(first + 4) % 8])?;
                self.line("look")?;
            }
        }
        Ok(())
    }

    /// Each caller's transfer ends with each set of callers waiting, itself among them or
    /// not.
    fn every_crowd(&mut self) -> io::Result<()> {
        for ended in 0..8 {
            self.line(&format!("# every set of callers waits as {ended}'s ends"))?;
            for crowd in 0..1 << 8 {
                self.line("fresh")?;
                self.come_and_start(ended, NONE)?;
                let waiting: Vec<u64> = (0..8).filter(|c| crowd >> c & 1 != 0).collect();
                self.come_all(&waiting)?;
                self.lines(&["cancel", "look"])?;
            }
        }
        Ok(())
    }

    /// One who comes before an end is in the round, one who comes after it isn't; with
    /// nobody in the round it is the next to come, looks in between or not.
    fn newcomers(&mut self) -> io::Result<()> {
        for ended in [0, 3, 7] {
            for early in 0..8 {
                for late in (0..8).filter(|late| *late != early) {
                    let what = format!("{ended}'s ends after {early} came");
                    self.case(&format!("{what}, then {late} comes"))?;
                    self.come_and_start(ended, SHORT)?;
                    self.come_all(&[early])?;
                    self.line(COMPLETE_IN)?;
                    self.come_all(&[late])?;
                    self.lines(&["look", "look"])?;
                }
            }
        }
        for looks in [&[][..], &["look", "look"]] {
            self.case("an end with nobody waiting: the next to come")?;
            self.come_and_start(5, SHORT)?;
            self.line("look")?;
            self.line(COMPLETE_IN)?;
            self.lines(looks)?;
            self.come_all(&[6])?;
            self.lines(looks)?;
            self.come_all(&[5, 7, 0])?;
            self.lines(&["look", "start-bulk-in 0", COMPLETE_IN, "look"])?;
        }
        Ok(())
    }

    /// Nobody is left out: from each caller on, with all waiting and with some.
    fn round_and_round(&mut self) -> io::Result<()> {
        for first in 0..8 {
            for waiting in [&[0, 1, 2, 3, 4, 5, 6, 7][..], &[1, 4, 6], &[7, 0]] {
                self.case(&format!("round from {first}, {waiting:?} waiting"))?;
                self.come_and_start(first, SHORT)?;
                self.come_all(waiting)?;
                for _ in 0..=waiting.len() {
                    self.lines(&[COMPLETE_IN, "look", "start-bulk-in 0"])?;
                }
            }
        }
        Ok(())
    }

    /// The bound: seven others end before the turn of one who comes again while its own
    /// runs, though each of them comes again at once.
    fn seven_others(&mut self) -> io::Result<()> {
        for caller in 0..8 {
            self.case(&format!("{caller} comes as it starts: seven others end"))?;
            self.come_and_start(caller, NONE)?;
            self.come_all(&[caller])?;
            let others: Vec<u64> = (1..8).map(|above| (caller + above) % 8).collect();
            self.come_all(&others)?;
            for other in others {
                self.lines(&["cancel", "look", "start-bulk-in 0"])?;
                self.come_all(&[other])?;
            }
            self.lines(&["cancel", "look", "start-bulk-in 0", "cancel", "look"])?;
        }
        Ok(())
    }

    /// Nobody waits, nothing is under way, and 0 comes first.
    fn fresh_dispatchers(&mut self) -> io::Result<()> {
        for fresh in ["fresh", "rule 1", "rule 2", "fresh"] {
            for under_way in [false, true] {
                self.case(&format!(
                    "{fresh} while callers wait, under way: {under_way}"
                ))?;
                self.come_all(&[6, 1, 7])?;
                if under_way {
                    self.line("start-bulk-in 0")?;
                }
                self.lines(&["look", fresh, "look", "start-bulk-in 0", COMPLETE_IN])?;
                self.come_all(&[0, 6, 1, 7])?;
                self.lines(&["look", "start-bulk-in 0", COMPLETE_IN, "look"])?;
            }
        }
        self.line("rule 1")
    }
}
