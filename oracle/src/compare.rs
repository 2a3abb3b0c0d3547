//! `oracle compare`, `compare-callers`, `compare-descriptors`, `compare-packets`,
//! `compare-wirepackets`, `compare-wirelist`: random input, played or judged here and by
//! another program.

use crate::generate::{generate, Kind};
use crate::script::{DeskRule, Format};
use crate::{
    configurations, descriptors, packet_lines, play, random_packets, record_listing,
    records,
};
use std::io::{self, Write};
use std::process::{Command, Output, Stdio};
use std::thread;

/// At most this many driver calls are asked of one script.
const RUN: u64 = 50_000;

/// As many random lines as one input has.
const LINES: u64 = 1_000;

/// Plays scripts of every kind, from `seed` on, until there were `calls` calls. Stops at
/// the first difference and answers whether there was none.
pub fn compare(
    format: Format,
    program: &str,
    seed: u64,
    calls: u64,
    rule: DeskRule,
    out: &mut impl Write,
) -> io::Result<bool> {
    let run = RUN.min(calls.div_ceil(Kind::ALL.len() as u64));
    let mut total = 0;
    for seed in seed.. {
        for kind in Kind::ALL {
            if total >= calls {
                writeln!(out, "{total} calls, 0 differences")?;
                return Ok(true);
            }
            let mut script = Vec::new();
            let played = generate(format, seed, run, kind, rule, &mut script)?;
            let what = format!("{} {seed}: {played} calls", kind.name());
            if let Some(difference) = played_difference(format, program, &script)? {
                writeln!(out, "{what}, different\n{difference}")?;
                return Ok(false);
            }
            writeln!(out, "{what}, 0 differences")?;
            out.flush()?;
            total += played;
        }
    }
    unreachable!("seeds don't end")
}

/// Random lines of one sort, and what a program has to print of them.
pub struct Subject {
    /// What the lines are.
    name: &'static str,
    /// So many of them, by the seed.
    lines: fn(u64, u64) -> Vec<u8>,
    judge: Judge,
    /// Cuts an output into what it has of each line.
    parts: Parts,
}

/// Makes the output that an input has to give.
pub type Judge = fn(&[u8]) -> Vec<u8>;

type Parts = fn(&[u8]) -> Vec<&[u8]>;

pub const DESCRIPTORS: Subject = Subject {
    name: "configurations",
    lines: configurations::lines,
    judge: descriptors::print,
    parts: blocks,
};

pub const PACKETS: Subject = Subject {
    name: "lines",
    lines: random_packets::lines,
    judge: packet_lines::print,
    parts: lines,
};

pub const WIRE_PACKETS: Subject = Subject {
    name: "records",
    lines: records::lines,
    judge: record_listing::packets,
    parts: blocks,
};

pub const WIRE_LIST: Subject = Subject {
    judge: record_listing::transfers,
    ..WIRE_PACKETS
};

/// Judges random lines, from `seed` on, until there were as many as asked for. Stops at
/// the first difference and answers whether there was none.
pub fn compare_lines(
    subject: &Subject,
    program: &str,
    seed: u64,
    count: u64,
    out: &mut impl Write,
) -> io::Result<bool> {
    for seed in seed..seed + count.div_ceil(LINES) {
        let input = (subject.lines)(seed, LINES);
        let expected = (subject.judge)(&input);
        if let Some(difference) = difference(program, &input, &expected, subject.parts)? {
            writeln!(out, "seed {seed}, different\n{difference}")?;
            return Ok(false);
        }
    }
    let (total, name) = (count.next_multiple_of(LINES), subject.name);
    writeln!(out, "{total} {name}, 0 differences")?;
    Ok(true)
}

fn played_difference(
    format: Format,
    program: &str,
    script: &[u8],
) -> io::Result<Option<String>> {
    let mut expected = Vec::new();
    play(format, script, &mut expected)?;
    difference(program, script, &expected, blocks)
}

/// The first difference between what is expected and what the program makes of the
/// input, told in words.
fn difference(
    program: &str,
    script: &[u8],
    expected: &[u8],
    parts: Parts,
) -> io::Result<Option<String>> {
    let found = played_by(program, script)?;
    Ok(if expected != found.stdout {
        Some(first_difference(
            script,
            &parts(expected),
            &parts(&found.stdout),
        ))
    } else if !found.status.success() {
        Some(format!("the program ended with {}", found.status))
    } else {
        None
    })
}

fn played_by(program: &str, script: &[u8]) -> io::Result<Output> {
    let mut child = Command::new(program)
        .stdin(Stdio::piped())
        .stdout(Stdio::piped())
        .spawn()
        .map_err(|error| io::Error::new(error.kind(), format!("{program}: {error}")))?;
    let mut input = child.stdin.take().expect("it is piped");
    thread::scope(|scope| {
        // A program that ends early shows by its output.
        scope.spawn(move || input.write_all(script));
        child.wait_with_output()
    })
}

fn first_difference(script: &[u8], expected: &[&[u8]], found: &[&[u8]]) -> String {
    let at = (0..)
        .find(|at| expected.get(*at) != found.get(*at))
        .expect("they differ");
    let line = script
        .split(|byte| *byte == b'\n')
        .enumerate()
        .filter(|(_, line)| !line.is_empty() && line[0] != b'#')
        .nth(at);
    let line = match line {
        Some((n, line)) => format!("{}: {}", n + 1, String::from_utf8_lossy(line)),
        None => "past the script's end".to_string(),
    };
    let shown = |block: Option<&&[u8]>| match block {
        Some(block) => String::from_utf8_lossy(block).into_owned(),
        None => "nothing\n".to_string(),
    };
    format!(
        "script line {line}\nthe oracle:\n{}the program:\n{}",
        shown(expected.get(at)),
        shown(found.get(at))
    )
}

/// The blocks of an output, each with the line `.` that ends it.
fn blocks(output: &[u8]) -> Vec<&[u8]> {
    let mut blocks = Vec::new();
    let (mut start, mut at) = (0, 0);
    for line in output.split_inclusive(|byte| *byte == b'\n') {
        at += line.len();
        if line == b".\n" {
            blocks.push(&output[start..at]);
            start = at;
        }
    }
    if start < at {
        blocks.push(&output[start..]);
    }
    blocks
}

fn lines(output: &[u8]) -> Vec<&[u8]> {
    output.split_inclusive(|byte| *byte == b'\n').collect()
}

#[cfg(test)]
mod tests {
    use super::*;

    #[test]
    fn the_first_different_call_is_named() {
        let script = b"# a comment\n\nclose 1\nclose 2\n";
        let expected = b"answer refused 17\n.\nanswer refused 17\n.\n";
        let found = b"answer refused 17\n.\nanswer closed\n.\n";
        assert_eq!(
            first_difference(script, &blocks(expected), &blocks(found)),
            "script line 4: close 2\nthe oracle:\nanswer refused 17\n.\n\
             the program:\nanswer closed\n.\n"
        );
        assert_eq!(
            first_difference(script, &blocks(expected), &blocks(&expected[..20])),
            "script line 4: close 2\nthe oracle:\nanswer refused 17\n.\n\
             the program:\nnothing\n"
        );
    }

    #[test]
    fn a_program_that_answers_otherwise_is_found() {
        let differs = |program, script| {
            let difference = played_difference(Format::Replay, program, script);
            difference.unwrap().is_some()
        };
        assert!(differs("cat", b"close 1\n"));
        assert!(differs("cat", b"# nothing to play"));
        assert!(differs("false", b""));
        assert!(!differs("cat", b""));
    }
}
