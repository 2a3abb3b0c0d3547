//! `oracle vectors` and `oracle callers-vectors`: the stored scripts, enumerated lists.
//! Their cases stand in files by call and branch; each begins with a comment and `fresh`,
//! or `rule`.

mod begins;
mod bulk;
mod callers;
mod control;
mod differences;
mod failures;
mod pipes;
mod record;
mod refusals;
mod samples;
mod scripts;
mod slots;
mod stages;
mod toggles;

use crate::player::Player;
use crate::script::{Format, Step, Way};
use std::io::{self, Write};

pub fn vectors(out: impl Write) -> io::Result<()> {
    let mut vectors = Vectors::new(out, Format::Replay);
    vectors.scripts(&scripts::REPLAY)?;
    vectors.differences()?;
    vectors.refusals()?;
    vectors.begins()?;
    vectors.samples()?;
    vectors.stages()?;
    vectors.failures()?;
    vectors.slots()?;
    vectors.bulk()?;
    vectors.control()?;
    vectors.pipes()?;
    vectors.record()?;
    vectors.toggles()?;
    vectors.player.flush()
}

/// Of the callers' format.
pub fn callers_vectors(out: impl Write) -> io::Result<()> {
    let mut vectors = Vectors::new(out, Format::Callers);
    vectors.scripts(&scripts::CALLERS)?;
    vectors.callers()?;
    vectors.begins()?;
    vectors.player.flush()
}

struct Vectors<W> {
    player: Player<W>,
}

impl<W: Write> Vectors<W> {
    fn new(out: W, format: Format) -> Self {
        Self {
            player: Player::new(out, format),
        }
    }

    fn line(&mut self, text: &str) -> io::Result<()> {
        self.player.line(text.as_bytes())
    }

    fn lines(&mut self, lines: &[&str]) -> io::Result<()> {
        lines.iter().try_for_each(|line| self.line(line))
    }

    /// What follows, on a fresh driver.
    fn case(&mut self, what: &str) -> io::Result<()> {
        self.line(&format!("# {what}"))?;
        self.line("fresh")
    }

    fn step(&mut self, way: Way, status: u32, intr: u32, buffers: u32) -> io::Result<()> {
        self.line(&Step::new(way, status, intr, buffers).to_string())
    }

    /// A sound device acts on up to so many packets before each step, until the
    /// transfer ends. It has `left` bytes to send.
    fn finish(&mut self, packets: usize, mut left: u32) -> io::Result<()> {
        let mut sent = 0;
        while let Some(under_way) = self.player.under_way {
            let (sie_status, intr) = self.player.device_acts(packets, |armed| {
                let length = armed.min(left);
                left -= length;
                sent += 1;
                (length, format!("seq:{length}:{}:3", sent * 7 % 256))
            })?;
            let buffer_control = self.player.bus.buffer_control;
            self.step(under_way.way, sie_status, intr, buffer_control)?;
        }
        Ok(())
    }
}

/// A bulk begin's line, to address 5 and endpoint 2.
fn bulk(way: Way, size: u32, kind: &str, toggle: u32, length: u32) -> String {
    match way {
        Way::In => format!("bulk-in 5 2 {size} {kind} {toggle} {length}"),
        Way::Out => format!("bulk-out 5 2 {size} {kind} {toggle} seq:{length}:1:1"),
    }
}

/// The lengths around the boundaries of packets of this size.
fn lengths(size: u32) -> Vec<u32> {
    let mut lengths = vec![0, 1, size - 1, size, size + 1, 2 * size - 1, 2 * size];
    lengths.sort_unstable();
    lengths.dedup();
    lengths
}

#[cfg(test)]
mod tests {
    use super::*;

    fn unreadable_lines(script: &[u8], format: Format) -> usize {
        let lines = script.split(|byte| *byte == b'\n');
        lines
            .filter(|line| crate::script::parse(line, format).is_err())
            .count()
    }

    /// Every line is played or skipped, but for those of the scripts of unreadable lines.
    #[test]
    fn the_scripts_are_readable() {
        let (mut replay, mut callers) = (Vec::new(), Vec::new());
        vectors(&mut replay).unwrap();
        callers_vectors(&mut callers).unwrap();
        for (script, meant, format) in [
            (replay, scripts::UNREADABLE, Format::Replay),
            (callers, scripts::CALLERS_UNREADABLE, Format::Callers),
        ] {
            let meant = unreadable_lines(meant.as_bytes(), format);
            assert_eq!(unreadable_lines(&script, format), meant);
        }
    }

    /// The gate's script and output are these, where they are stored.
    fn check_stored(
        program: &str,
        vectors: impl Fn(&mut Vec<u8>) -> io::Result<()>,
        format: Format,
    ) {
        let crates = std::path::Path::new(env!("CARGO_MANIFEST_DIR")).join("../crates");
        let folder = crates.join(program);
        if !folder.join("stdin").exists() {
            return;
        }
        let (mut script, mut output) = (Vec::new(), Vec::new());
        vectors(&mut script).unwrap();
        crate::play(format, &script[..], &mut output).unwrap();
        assert!(std::fs::read(folder.join("stdin")).unwrap() == script);
        assert!(std::fs::read(folder.join("stdout")).unwrap() == output);
    }

    #[test]
    fn stored_replay() {
        check_stored("replay", |out| vectors(out), Format::Replay);
    }

    #[test]
    fn stored_callers() {
        check_stored("callers", |out| callers_vectors(out), Format::Callers);
    }
}
