//! The scripts of the oracle's own tests: document 01's table, lending, failed transfers,
//! callers, shares and frames, and lines that can't be read.

use super::Vectors;
use std::io::{self, Write};

pub const REPLAY: [&str; 7] = [
    include_str!("../../tests/scripts/golden.script"),
    include_str!("../../tests/scripts/table.script"),
    include_str!("../../tests/scripts/control.script"),
    include_str!("../../tests/scripts/pipes.script"),
    include_str!("../../tests/scripts/lending.script"),
    include_str!("../../tests/scripts/failed.script"),
    UNREADABLE,
];

pub const UNREADABLE: &str = include_str!("../../tests/scripts/unreadable.script");

/// Those of the callers' format.
pub const CALLERS: [&str; 3] = [
    include_str!("../../tests/scripts/callers.script"),
    include_str!("../../tests/scripts/shares.script"),
    CALLERS_UNREADABLE,
];

pub const CALLERS_UNREADABLE: &str =
    include_str!("../../tests/scripts/callers-unreadable.script");

impl<W: Write> Vectors<W> {
    pub fn scripts(&mut self, scripts: &[&str]) -> io::Result<()> {
        for script in scripts {
            self.line("fresh")?;
            let lines = script.trim_end_matches('\n').split('\n');
            lines.into_iter().try_for_each(|line| self.line(line))?;
        }
        Ok(())
    }
}
