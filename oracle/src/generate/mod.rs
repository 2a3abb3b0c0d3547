//! `oracle gen` and `oracle gen-callers`: seeded random scripts.

mod callers;
mod edge;
mod hostile;
mod lines;
mod mangled;
mod well;

use crate::player::Player;
use crate::rng::Rng;
use crate::script::{DeskRule, Format};
pub use mangled::mangle;
use std::io::{self, Write};

#[derive(Clone, Copy, PartialEq, Eq)]
pub enum Kind {
    /// Arguments in range, and samples as a sound device would give them.
    Well,
    /// Arguments mostly in range, samples at random.
    Hostile,
    /// Refused calls and limits.
    Edge,
    /// Lines with bytes changed, so that some can't be read.
    Mangled,
}

impl Kind {
    pub const ALL: [Self; 4] = [Self::Well, Self::Hostile, Self::Edge, Self::Mangled];

    pub fn name(self) -> &'static str {
        match self {
            Self::Well => "well",
            Self::Hostile => "hostile",
            Self::Edge => "edge",
            Self::Mangled => "mangled",
        }
    }

    /// Whether fields are at and past their limits.
    fn has_limits(self) -> bool {
        matches!(self, Self::Edge | Self::Mangled)
    }

    pub fn named(name: &str) -> Option<Self> {
        Self::ALL.into_iter().find(|kind| kind.name() == name)
    }
}

/// A script with at least `calls` driver calls, refused ones too. Other lines come in
/// between. The number of calls is answered.
pub fn generate(
    format: Format,
    seed: u64,
    calls: u64,
    kind: Kind,
    rule: DeskRule,
    out: impl Write,
) -> io::Result<u64> {
    let mut generator = Generator {
        rng: Rng::new(seed),
        kind,
        frame: 0,
        player: Player::new(out, format),
    };
    generator.player.line(match rule {
        DeskRule::One => b"fresh",
        DeskRule::Two => b"rule 2",
    })?;
    while generator.player.calls < calls {
        if generator.rng.once_in(400) {
            generator.line("record")?;
            generator.fresh()?;
        }
        let failures = generator.player.failures;
        match kind {
            _ if format == Format::Callers && generator.rng.once_in(3) => {
                generator.dispatch()?;
            }
            Kind::Well => generator.well()?,
            Kind::Hostile => generator.hostile()?,
            Kind::Edge => generator.edge()?,
            Kind::Mangled => generator.mangled()?,
        }
        if generator.player.failures > failures {
            generator.after_a_failure()?;
        }
    }
    generator.line("record")?;
    generator.player.flush()?;
    Ok(generator.player.calls)
}

struct Generator<W> {
    rng: Rng,
    kind: Kind,
    /// The number of the last `frame` line.
    frame: u32,
    player: Player<W>,
}

impl<W: Write> Generator<W> {
    fn line(&mut self, text: &str) -> io::Result<()> {
        if self.kind == Kind::Mangled && self.rng.once_in(6) {
            let text = mangle(&mut self.rng, text);
            return self.player.line(&text);
        }
        self.player.line(text.as_bytes())
    }

    /// A callers' script changes the desk rule now and then, and mostly the shares.
    fn fresh(&mut self) -> io::Result<()> {
        match self.player.format {
            Format::Replay => self.line("fresh"),
            Format::Callers => match self.rng.below(6) {
                0..3 => self.shares(),
                3 => self.line("fresh"),
                4 => self.line("rule 1"),
                _ => self.line("rule 2"),
            },
        }
    }

    /// A transfer failed or was cancelled: the record, one time in four; seldom a cancel
    /// of nothing before it.
    fn after_a_failure(&mut self) -> io::Result<()> {
        if self.rng.once_in(16) {
            self.line("cancel")?;
        }
        if self.rng.once_in(4) {
            self.line("record")?;
        }
        Ok(())
    }
}

#[cfg(test)]
mod tests {
    use super::*;
    use std::collections::BTreeSet;

    fn script(format: Format, seed: u64, kind: Kind) -> Vec<u8> {
        let mut out = Vec::new();
        let calls = generate(format, seed, 3000, kind, DeskRule::One, &mut out);
        assert!(calls.unwrap() >= 3000);
        out
    }

    #[test]
    fn the_seed_decides() {
        for format in [Format::Replay, Format::Callers] {
            let script = |seed| script(format, seed, Kind::Well);
            assert_eq!(script(1), script(1));
            assert_ne!(script(1), script(2));
        }
    }

    /// The answers that come up, refusals with their numbers.
    fn answers(format: Format) -> BTreeSet<String> {
        let mut answers = BTreeSet::new();
        for kind in Kind::ALL {
            let mut out = Vec::new();
            crate::play(format, &script(format, 7, kind)[..], &mut out).unwrap();
            for line in String::from_utf8(out).unwrap().lines() {
                let mut words = line.split(' ');
                if words.next() == Some("answer") {
                    let word = words.next().unwrap();
                    let value = match word {
                        "refused" | "device" | "waiting" => words.next().unwrap_or(""),
                        _ => "",
                    };
                    answers.insert(format!("{word} {value}"));
                }
            }
        }
        answers
    }

    /// These refusals, the answers of both formats and these.
    fn expected(refusals: impl Iterator<Item = u8>, others: &[&str]) -> BTreeSet<String> {
        let both = [
            "ok ",
            "waiting 0",
            "waiting 1",
            "done ",
            "cancelled ",
            "closed ",
            "pipe ",
            "packet ",
            "wake ",
            "device absent",
            "device low",
            "device full",
        ];
        let refusals = refusals.map(|number| format!("refused {number}"));
        let answers = both.iter().chain(others).map(|answer| answer.to_string());
        refusals.chain(answers).collect()
    }

    /// Every answer and every refusal of the driver comes up.
    #[test]
    fn all_answers_come_up() {
        assert_eq!(answers(Format::Replay), expected(1..=17, &["begun "]));
    }

    /// 8 no longer occurs.
    #[test]
    fn all_answers_to_callers_come_up() {
        let refusals = (1..=7).chain(9..=17).chain(32..=34);
        let others = ["waiting ", "started ", "turn ", "nobody "];
        assert_eq!(answers(Format::Callers), expected(refusals, &others));
    }
}
