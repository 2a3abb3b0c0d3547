//! The oracle: the Rust of cotton-usb-host, run over a memory stand-in. It reads a
//! script and prints what each call answers, writes and arms. docs/ORACLE.md.

#[cfg(feature = "lean")]
mod bench;
mod bus;
mod caller_lines;
mod cases;
mod compare;
mod configurations;
mod descriptors;
mod dispatcher;
mod driver;
mod generate;
mod lent_buffer;
mod packet_lines;
mod packets;
mod player;
mod print;
mod random_packets;
mod record;
mod record_listing;
mod record_reader;
mod records;
mod rng;
mod rules;
mod runs;
mod script;
mod session;
mod short_groups;
mod standins;
mod transfer;
mod usb_packets;
mod vectors;

// The Rust, as build.rs left it. It finds its own crates' names among the stand-ins.

use standins::debug;

#[allow(dead_code)]
mod bitset {
    include!(concat!(env!("OUT_DIR"), "/bitset.rs"));
}

#[allow(dead_code)]
mod async_pool {
    include!(concat!(env!("OUT_DIR"), "/async_pool.rs"));

    #[cfg(test)]
    pub mod view {
        pub fn free(pool: &super::Pool, index: u8) {
            pool.dealloc_internal(index);
        }
    }
}

#[allow(dead_code)]
mod host_controller {
    use crate::standins::futures;
    include!(concat!(env!("OUT_DIR"), "/host_controller.rs"));
}

#[allow(dead_code, unused_variables)]
mod wire {
    use crate::standins::bytemuck;
    include!(concat!(env!("OUT_DIR"), "/wire.rs"));
}

#[allow(dead_code, unused_variables, clippy::all)]
mod rp2040 {
    use crate::standins::memory::dpram_address;
    use crate::standins::{cortex_m, defmt, futures, gate, rp2040_pac, rtic_common};
    include!(concat!(env!("OUT_DIR"), "/rp2040.rs"));

    /// What the oracle reads of the Rust's private fields; it changes none.
    pub mod view {
        use super::{Rp2040InterruptPipe, UsbShared};

        pub fn pipe_number(pipe: &Rp2040InterruptPipe) -> u8 {
            pipe.pipe.which()
        }

        /// The set of pipes, and whether detection, woken since this was last asked.
        pub fn take_woken(shared: &UsbShared) -> (u16, bool) {
            let mut pipes = 0;
            for (n, waker) in shared.pipe_wakers.iter().enumerate() {
                pipes |= u16::from(waker.take_woken()) << n;
            }
            (pipes, shared.device_waker.take_woken())
        }

        /// The first packet of these bytes at packet size 0.
        #[cfg(test)]
        pub fn first_at_0(
            kind: super::TransferType,
            bytes: &[u8],
        ) -> Option<(usize, bool)> {
            use super::{OutPacketiser, TransferType, ZeroLengthPacket};
            let zlp = match kind {
                TransferType::FixedSize => ZeroLengthPacket::Never,
                TransferType::VariableSize => ZeroLengthPacket::AsNeeded,
            };
            OutPacketiser::new(bytes.len() as u16, 0, bytes, false, zlp).next_packet()
        }
    }
}

use script::{DeskRule, Format};
use std::io::{self, BufRead, Read, Write};
use std::process::ExitCode;

const USAGE: &str = "usage: oracle < SCRIPT
       oracle gen SEED CALLS well|hostile|edge|mangled [RULE]
       oracle vectors
       oracle compare REPLAY SEED CALLS [RULE]
       oracle callers < SCRIPT
       oracle gen-callers SEED CALLS well|hostile|edge|mangled
       oracle callers-vectors
       oracle compare-callers CALLERS SEED CALLS
       oracle descriptors < LINES
       oracle packets < LINES
       oracle wirepackets < LINES
       oracle wirelist < LINES
       oracle wirepcap < RECORD
       oracle shortgroups < LINES
       oracle compare-descriptors DESCRIPTORCASES SEED CONFIGURATIONS
       oracle compare-packets PACKETS SEED LINES
       oracle compare-wirepackets WIREPACKETCASES SEED RECORDS
       oracle compare-wirelist WIRECASES SEED RECORDS
       oracle bench < LETTERS (with the feature lean)";

fn main() -> ExitCode {
    let arguments: Vec<String> = std::env::args().skip(1).collect();
    let arguments: Vec<&str> = arguments.iter().map(String::as_str).collect();
    match run(&arguments) {
        Some(Ok(true)) => ExitCode::SUCCESS,
        Some(Ok(false)) => ExitCode::FAILURE,
        Some(Err(error)) => {
            eprintln!("oracle: {error}");
            ExitCode::FAILURE
        }
        None => {
            eprintln!("{USAGE}");
            ExitCode::from(2)
        }
    }
}

/// What the arguments ask for: whether all went well, or nothing if they are bad.
fn run(arguments: &[&str]) -> Option<io::Result<bool>> {
    let mut out = io::BufWriter::new(io::stdout().lock());
    Some(match *arguments {
        [] => play(Format::Replay, io::stdin().lock(), out).map(|()| true),
        ["callers"] => play(Format::Callers, io::stdin().lock(), out).map(|()| true),
        ["gen", seed, calls, kind, ref rule @ ..] => {
            generated(Format::Replay, desk_rule(rule)?, [seed, calls, kind], out)?
        }
        ["gen-callers", seed, calls, kind] => {
            generated(Format::Callers, DeskRule::One, [seed, calls, kind], out)?
        }
        ["vectors"] => vectors::vectors(out).map(|()| true),
        ["callers-vectors"] => vectors::callers_vectors(out).map(|()| true),
        ["compare", program, seed, calls, ref rule @ ..] => compared(
            Format::Replay,
            desk_rule(rule)?,
            [program, seed, calls],
            &mut out,
        )?,
        ["compare-callers", program, seed, calls] => compared(
            Format::Callers,
            DeskRule::One,
            [program, seed, calls],
            &mut out,
        )?,
        #[cfg(feature = "lean")]
        ["bench"] => bench::bench(io::stdin().lock(), &mut out).map(|()| true),
        [name] => judged(judge(name)?, out).map(|()| true),
        [name, program, seed, lines] => {
            let (seed, lines) = (seed.parse().ok()?, lines.parse().ok()?);
            compare::compare_lines(&subject(name)?, program, seed, lines, &mut out)
        }
        _ => return None,
    })
}

/// Prints a random script.
fn generated(
    format: Format,
    rule: DeskRule,
    [seed, calls, kind]: [&str; 3],
    out: impl Write,
) -> Option<io::Result<bool>> {
    let kind = generate::Kind::named(kind)?;
    let (seed, calls) = (seed.parse().ok()?, calls.parse().ok()?);
    Some(generate::generate(format, seed, calls, kind, rule, out).map(|_| true))
}

/// Compares random scripts with a program.
fn compared(
    format: Format,
    rule: DeskRule,
    [program, seed, calls]: [&str; 3],
    out: &mut impl Write,
) -> Option<io::Result<bool>> {
    let (seed, calls) = (seed.parse().ok()?, calls.parse().ok()?);
    Some(compare::compare(format, program, seed, calls, rule, out))
}

fn judge(name: &str) -> Option<compare::Judge> {
    match name {
        "descriptors" => Some(descriptors::print),
        "packets" => Some(packet_lines::print),
        "wirepackets" => Some(record_listing::packets),
        "wirelist" => Some(record_listing::transfers),
        "wirepcap" => Some(record_listing::pcap),
        "shortgroups" => Some(short_groups::print),
        _ => None,
    }
}

fn subject(name: &str) -> Option<compare::Subject> {
    match name {
        "compare-descriptors" => Some(compare::DESCRIPTORS),
        "compare-packets" => Some(compare::PACKETS),
        "compare-wirepackets" => Some(compare::WIRE_PACKETS),
        "compare-wirelist" => Some(compare::WIRE_LIST),
        _ => None,
    }
}

/// Prints the output that standard input has to give.
fn judged(judge: compare::Judge, mut out: impl Write) -> io::Result<()> {
    let mut input = Vec::new();
    io::stdin().lock().read_to_end(&mut input)?;
    out.write_all(&judge(&input))?;
    out.flush()
}

/// Desk rule 1 unless said otherwise.
fn desk_rule(arguments: &[&str]) -> Option<DeskRule> {
    match arguments {
        [] | ["1"] => Some(DeskRule::One),
        ["2"] => Some(DeskRule::Two),
        _ => None,
    }
}

/// Plays a script line by line.
fn play(format: Format, mut script: impl BufRead, mut out: impl Write) -> io::Result<()> {
    let mut session = session::Session::new();
    let mut line = Vec::new();
    for number in 1u64.. {
        line.clear();
        if script.read_until(b'\n', &mut line)? == 0 {
            break;
        }
        if line.last() == Some(&b'\n') {
            line.pop();
        }
        match script::parse(&line, format) {
            Ok(None) => {}
            Ok(Some(call)) => print::block(&mut out, &session.play(call))?,
            Err(script::Unreadable) => print::unreadable(&mut out, number)?,
        }
    }
    out.flush()
}
