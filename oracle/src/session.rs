//! Plays the lines of a script on a driver and its dispatcher.

use crate::dispatcher::Dispatcher;
use crate::driver::{Answer, Driver};
use crate::packets::Packets;
use crate::record::{Entry, Record, Registers};
use crate::rules::Lent;
use crate::runs::{self, Run};
use crate::script::{Begin, Coming, DeskRule, Line, Shares, Start, Step};
use crate::standins::memory::{self, Write};

/// Everything that came of one line.
pub enum Block {
    Call(Report),
    Record(Result<Vec<u8>, u8>),
}

pub struct Report {
    pub answer: Answer,
    /// The toggle that a bulk transfer hands out which failed or was cancelled.
    pub toggle: Option<bool>,
    /// How many entries a transfer that failed or was cancelled had started.
    pub failed: Option<u32>,
    pub log: Vec<Write>,
    pub armed: Vec<Entry>,
    pub packet_memory: Vec<Run>,
    pub buffer: Vec<Run>,
}

impl Report {
    fn ok() -> Self {
        Self::quiet(Answer::Ok)
    }

    /// Of a line that writes nothing, arms nothing and changes no byte.
    fn quiet(answer: Answer) -> Self {
        Self {
            answer,
            toggle: None,
            failed: None,
            log: Vec::new(),
            armed: Vec::new(),
            packet_memory: Vec::new(),
            buffer: Vec::new(),
        }
    }
}

pub struct Session {
    rule: DeskRule,
    shares: Shares,
    driver: Driver,
    dispatcher: Dispatcher,
    /// What comings, looks and starts bring.
    frame: u32,
    lent: Lent,
    /// The bytes lent to the next step alone.
    next_buffer: Option<Vec<u8>>,
    /// The registers as the logs leave them.
    registers: Registers,
    /// The entries that the logs started since the last begin that was not refused.
    entries: u32,
    /// The packets of the bulk transfer under way, armed and retired.
    packets: Option<Packets>,
    record: Record,
}

impl Session {
    pub fn new() -> Self {
        Self::of(DeskRule::One, [u32::MAX; 8])
    }

    fn of(rule: DeskRule, shares: Shares) -> Self {
        Self {
            rule,
            shares,
            driver: Driver::fresh(),
            dispatcher: Dispatcher::new(shares),
            frame: 0,
            lent: Lent::whole(),
            next_buffer: None,
            registers: Registers::default(),
            entries: 0,
            packets: None,
            record: Record::new(),
        }
    }

    pub fn play(&mut self, line: Line) -> Block {
        let lent = self.lent;
        Block::Call(match line {
            Line::Record => {
                return Block::Record(self.record.bytes().map(<[u8]>::to_vec));
            }
            Line::Fresh => {
                *self = Self::of(self.rule, self.shares);
                Report::ok()
            }
            Line::Rule(rule) => {
                *self = Self::of(rule, self.shares);
                Report::ok()
            }
            Line::Shares(shares) => {
                *self = Self::of(self.rule, shares);
                Report::ok()
            }
            Line::Frame(frame) => {
                self.frame = frame;
                Report::ok()
            }
            Line::Lend { packet_memory, log } => {
                self.lent = Lent { packet_memory, log };
                Report::ok()
            }
            Line::PacketMemory { offset, bytes } => {
                memory::hardware_wrote(offset, &bytes);
                Report::ok()
            }
            Line::Buffer(bytes) => {
                self.next_buffer = Some(bytes);
                Report::ok()
            }
            Line::Step(step) => {
                let own = self.next_buffer.take();
                let report = self.call(|driver| driver.step(lent, &step, own.as_deref()));
                self.hand_out(report, Some(&step))
            }
            Line::Begin(begin) => self.begin(&begin),
            Line::Come(coming) => {
                Report::quiet(match self.dispatcher.come(self.frame, coming) {
                    Ok(()) => Answer::Come,
                    Err(number) => Answer::Refused(number),
                })
            }
            Line::Look => Report::quiet(Answer::Turn(self.dispatcher.look(self.frame))),
            Line::Start(start) => self.start(start),
            Line::Cancel => {
                let report = self.plain_call(Driver::cancel);
                self.hand_out(report, None)
            }
            Line::Open(open) => self.plain_call(|driver| driver.open(lent, &open)),
            Line::Close(pipe) => self.plain_call(|driver| driver.close(pipe)),
            Line::Poll(poll) => self.plain_call(|driver| driver.poll(lent, &poll)),
            Line::Irq { ints, buff_status } => {
                self.plain_call(|driver| driver.irq(lent, ints, buff_status))
            }
            Line::Detect { sie_status } => {
                self.plain_call(|driver| driver.detect(lent, sie_status))
            }
        })
    }

    fn begin(&mut self, begin: &Begin) -> Report {
        let lent = self.lent;
        let report = self.plain_call(|driver| driver.begin(lent, begin));
        if matches!(report.answer, Answer::Begun) {
            self.packets = Packets::of(&begin.request, &report.log);
        }
        report
    }

    /// A start "does what begin did". The record's writer, called after a refused one for
    /// nothing armed, writes nothing.
    fn start(&mut self, start: Start) -> Report {
        let lent = self.lent.both();
        match lent.and_then(|()| self.dispatcher.start(self.frame, start)) {
            Ok((caller, begin)) => {
                let report = self.begin(&begin);
                assert!(matches!(report.answer, Answer::Begun));
                Report {
                    answer: Answer::Started(caller),
                    ..report
                }
            }
            Err(number) => Report::quiet(Answer::Refused(number)),
        }
    }

    fn plain_call(
        &mut self,
        call: impl FnOnce(&mut Driver) -> Result<Answer, u8>,
    ) -> Report {
        self.call(|driver| Ok((call(driver)?, Vec::new())))
    }

    fn call(
        &mut self,
        call: impl FnOnce(&mut Driver) -> Result<(Answer, Vec<Run>), u8>,
    ) -> Report {
        let before = memory::packet_memory();
        let (answer, buffer) = call(&mut self.driver)
            .unwrap_or_else(|number| (Answer::Refused(number), Vec::new()));
        let log = memory::take_log();
        let after = memory::packet_memory();
        let armed = self.registers.armed(&log, &after);
        if answer.is_end() {
            self.dispatcher.end();
        }
        let failed = self.count(&answer, armed.len() as u32);
        self.record.append(&armed, failed);
        Report {
            answer,
            toggle: None,
            failed,
            log,
            armed,
            packet_memory: runs::changed(&before, &after),
            buffer,
        }
    }

    /// The toggle of a step or cancel: under rule 1 the Rust's, under rule 2 the one
    /// counted here.
    fn hand_out(&mut self, mut report: Report, step: Option<&Step>) -> Report {
        if let (Some(packets), Some(step)) = (&mut self.packets, step) {
            packets.step(step, &report.answer, &report.log);
        }
        report.toggle = match report.answer {
            Answer::Failed { toggle, .. } | Answer::Cancelled { toggle } => match self
                .rule
            {
                DeskRule::One => toggle,
                DeskRule::Two => toggle.and(self.packets.as_ref()).map(Packets::toggle),
            },
            _ => None,
        };
        report
    }

    /// Counts the entries of a call; the count is answered where the Rust's future ended
    /// in an error or was dropped.
    fn count(&mut self, answer: &Answer, armed: u32) -> Option<u32> {
        if matches!(answer, Answer::Begun) {
            self.entries = 0;
        }
        self.entries += armed;
        matches!(answer, Answer::Failed { .. } | Answer::Cancelled { .. })
            .then_some(self.entries)
    }

    pub fn dispatcher(&self) -> &Dispatcher {
        &self.dispatcher
    }

    /// What the transfer came with that a start would start.
    pub fn next(&self) -> Option<Coming> {
        self.dispatcher.seen(self.frame).next().cloned()
    }

    /// A register as the logs so far leave it.
    pub fn register(&self, register: u32) -> u32 {
        self.registers.get(register)
    }
}
