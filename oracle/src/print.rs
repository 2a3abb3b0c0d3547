//! The output of a script.

use crate::driver::Answer;
use crate::host_controller::{DeviceStatus, UsbSpeed};
use crate::record::Entry;
use crate::runs::Run;
use crate::session::{Block, Report};
use std::io::{self, Write};

pub fn block(out: &mut impl Write, block: &Block) -> io::Result<()> {
    match block {
        Block::Call(report) => call(out, report)?,
        Block::Record(Ok(bytes)) => writeln!(out, "record {}", hex(bytes))?,
        Block::Record(Err(number)) => writeln!(out, "record refused {number}")?,
    }
    writeln!(out, ".")
}

pub fn unreadable(out: &mut impl Write, number: u64) -> io::Result<()> {
    writeln!(out, "{}.", not_a_line(number))
}

pub fn not_a_line(number: u64) -> String {
    format!("line {number}: not a line of a script\n")
}

fn call(out: &mut impl Write, report: &Report) -> io::Result<()> {
    answer(out, &report.answer)?;
    if let Some(toggle) = report.toggle {
        writeln!(out, "toggle {}", u8::from(toggle))?;
    }
    if let Some(count) = report.failed {
        writeln!(out, "failed {count}")?;
    }
    // The oracle's log is a list: no word past the writes can change, so there is never
    // a `log` line.
    for write in &report.log {
        let (register, mask, value) = (write.register, write.mask, write.value);
        writeln!(out, "w {register:#010x} {mask:#010x} {value:#010x}")?;
    }
    for entry in &report.armed {
        armed(out, entry)?;
    }
    changed(out, "pm", &report.packet_memory)?;
    changed(out, "buf", &report.buffer)
}

fn answer(out: &mut impl Write, answer: &Answer) -> io::Result<()> {
    write!(out, "answer ")?;
    match answer {
        Answer::Ok => writeln!(out, "ok"),
        Answer::Begun => writeln!(out, "begun"),
        Answer::Come => writeln!(out, "waiting"),
        Answer::Turn(Some(caller)) => writeln!(out, "turn {caller}"),
        Answer::Turn(None) => writeln!(out, "nobody"),
        Answer::Started(caller) => writeln!(out, "started {caller}"),
        Answer::Waiting { again } => writeln!(out, "waiting {}", u8::from(*again)),
        Answer::Done { count, toggle } => {
            let toggle = match toggle {
                Some(true) => "1",
                Some(false) => "0",
                None => "-",
            };
            writeln!(out, "done {count} {toggle}")
        }
        Answer::Refused(number) | Answer::Failed { number, .. } => {
            writeln!(out, "refused {number}")
        }
        Answer::Cancelled { .. } => writeln!(out, "cancelled"),
        Answer::Closed => writeln!(out, "closed"),
        Answer::Pipe(n) => writeln!(out, "pipe {n}"),
        Answer::Packet(packet) => {
            let (address, endpoint, size) =
                (packet.address, packet.endpoint, packet.size);
            writeln!(out, "packet {address} {endpoint} {size} {}", hex(packet))
        }
        Answer::Wake { pipes, detection } => {
            writeln!(out, "wake {pipes:#06x} {}", u8::from(*detection))
        }
        Answer::Device(status) => writeln!(out, "device {}", device(*status)),
    }
}

fn device(status: DeviceStatus) -> &'static str {
    match status {
        DeviceStatus::Absent => "absent",
        DeviceStatus::Present(UsbSpeed::Low1_5) => "low",
        DeviceStatus::Present(UsbSpeed::Full12) => "full",
        DeviceStatus::Present(UsbSpeed::High480) => unreachable!("no such speed field"),
    }
}

fn armed(out: &mut impl Write, entry: &Entry) -> io::Result<()> {
    match entry {
        Entry::Setup { address, bytes } => {
            writeln!(out, "setup {address} {}", hex(bytes))
        }
        Entry::Out {
            address,
            endpoint,
            pid,
            last,
            bytes,
        } => writeln!(
            out,
            "out {address} {endpoint} {pid} {last} {} {}",
            bytes.len(),
            hex(bytes)
        ),
    }
}

fn changed(out: &mut impl Write, name: &str, runs: &[Run]) -> io::Result<()> {
    for run in runs {
        writeln!(out, "{name} {} {}", run.offset, hex(&run.bytes))?;
    }
    Ok(())
}

pub fn hex(bytes: &[u8]) -> String {
    const DIGITS: &[u8; 16] = b"0123456789abcdef";
    if bytes.is_empty() {
        return "-".to_string();
    }
    let mut text = String::with_capacity(2 * bytes.len());
    for byte in bytes {
        text.push(DIGITS[usize::from(byte >> 4)].into());
        text.push(DIGITS[usize::from(byte & 15)].into());
    }
    text
}
