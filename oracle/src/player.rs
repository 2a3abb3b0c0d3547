//! Writes a script and plays it at the same time, so that the next line can go by what
//! the driver answered.

use crate::bus::Bus;
use crate::dispatcher::Dispatcher;
use crate::driver::Answer;
use crate::record::{SEND_SETUP, SIE_CTRL};
use crate::script::{self, Coming, Format, Line, Request, Way};
use crate::session::{Block, Report, Session};
use std::io::{self, Write};

pub const TRANS_COMPLETE: u32 = 1 << 18;
/// In the order in which they are looked for.
pub const ERRORS: [u32; 6] = [1 << 31, 1 << 29, 1 << 26, 1 << 27, 1 << 25, 1 << 24];
pub const INTR_TRANS_COMPLETE: u32 = 0x8;
pub const INTR_BUFF_STATUS: u32 = 0x10;

pub struct Player<W> {
    out: W,
    pub format: Format,
    session: Session,
    pub bus: Bus,
    pub under_way: Option<UnderWay>,
    /// Pipe n at n - 1.
    pub open: [bool; 15],
    /// Transfers that failed or were cancelled so far.
    pub failures: u64,
    /// Begins, comings, looks, starts, steps, cancels, opens, closes, polls, interrupts
    /// and detections so far, refused ones too.
    pub calls: u64,
}

/// What the script knows of the transfer under way.
#[derive(Clone, Copy)]
pub struct UnderWay {
    pub way: Way,
    pub size: u64,
    pub length: usize,
}

impl UnderWay {
    fn of(request: &Request, length: usize) -> Self {
        Self {
            way: request.way(),
            size: request.size().into(),
            length,
        }
    }
}

impl<W: Write> Player<W> {
    pub fn new(out: W, format: Format) -> Self {
        Self {
            out,
            format,
            session: Session::new(),
            bus: Bus::default(),
            under_way: None,
            open: [false; 15],
            failures: 0,
            calls: 0,
        }
    }

    /// Writes a line, without its LF, and plays it unless it is skipped or unreadable.
    pub fn line(&mut self, text: &[u8]) -> io::Result<()> {
        self.out.write_all(text)?;
        self.out.write_all(b"\n")?;
        let Ok(Some(line)) = script::parse(text, self.format) else {
            return Ok(());
        };
        self.calls += u64::from(is_call(&line));
        if matches!(line, Line::Fresh | Line::Rule(_) | Line::Shares(_)) {
            self.under_way = None;
            self.open = [false; 15];
        }
        let asked = self.asked(&line);
        if let Block::Call(report) = self.session.play(line.clone()) {
            self.note(&line, asked, &report);
        }
        Ok(())
    }

    pub fn dispatcher(&self) -> &Dispatcher {
        self.session.dispatcher()
    }

    /// What the transfer came with that a start would start.
    pub fn next(&self) -> Option<Coming> {
        self.session.next()
    }

    /// Lets a sound device take or send up to so many packets, or take the SETUP, and
    /// gives SIE_STATUS and INTR after it. For an IN slot of some length, `send` gives
    /// the length and the BYTES that the device sends.
    pub fn device_acts(
        &mut self,
        packets: usize,
        mut send: impl FnMut(u32) -> (u32, String),
    ) -> io::Result<(u32, u32)> {
        if self.session.register(SIE_CTRL) & SEND_SETUP != 0 {
            return Ok((TRANS_COMPLETE, INTR_TRANS_COMPLETE));
        }
        for _ in 0..packets {
            let Some(armed) = self.bus.armed() else { break };
            let mut is_final = armed.is_last;
            if armed.is_in {
                let (length, bytes) = send(armed.length);
                let start = 0x180 + 0x40 * self.bus.slot;
                self.line(format!("pm {start:#x} {bytes}").as_bytes())?;
                self.bus.fill(length);
                is_final |= length < armed.length;
            } else {
                self.bus.take();
            }
            if is_final {
                return Ok((TRANS_COMPLETE, INTR_TRANS_COMPLETE | INTR_BUFF_STATUS));
            }
        }
        Ok((0, INTR_BUFF_STATUS))
    }

    pub fn flush(&mut self) -> io::Result<()> {
        self.out.flush()
    }

    /// The transfer that a begin or a start would begin.
    fn asked(&self, line: &Line) -> Option<UnderWay> {
        match line {
            Line::Begin(begin) => Some(UnderWay::of(&begin.request, begin.buffer.len())),
            Line::Start(_) => {
                let next = self.next()?;
                Some(UnderWay::of(&next.request, next.length))
            }
            _ => None,
        }
    }

    fn note(&mut self, line: &Line, asked: Option<UnderWay>, report: &Report) {
        self.bus.see(&report.log);
        self.failures += u64::from(report.failed.is_some());
        match (line, &report.answer) {
            (_, Answer::Begun | Answer::Started(_)) => self.under_way = asked,
            (_, answer) if answer.is_end() => self.under_way = None,
            (_, Answer::Pipe(n)) => self.open[usize::from(*n) - 1] = true,
            (Line::Close(n), Answer::Closed) => self.open[usize::from(*n) - 1] = false,
            _ => {}
        }
    }
}

fn is_call(line: &Line) -> bool {
    !matches!(
        line,
        Line::Fresh
            | Line::Rule(_)
            | Line::Shares(_)
            | Line::Frame(_)
            | Line::Lend { .. }
            | Line::PacketMemory { .. }
            | Line::Buffer(_)
            | Line::Record
    )
}
