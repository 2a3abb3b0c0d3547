//! What ends a transfer and passes the turn, and what doesn't.

use super::super::stages::{Stage, BULK_IN, IN_DATA, STAGES, STATUS_OF_NONE};
use super::super::Vectors;
use super::{BULK_OUT, COMPLETE_IN, COMPLETE_OUT, SHORT};
use crate::player::{ERRORS, INTR_BUFF_STATUS};
use crate::script::Way;
use std::io::{self, Write};

impl<W: Write> Vectors<W> {
    pub fn ends(&mut self) -> io::Result<()> {
        for stage in &STAGES {
            for error in ERRORS {
                self.started(stage, &format!("error {error:#x}"))?;
                self.step(stage.way, error, INTR_BUFF_STATUS, 0)?;
                self.passed()?;
            }
            self.started(stage, "cancel")?;
            self.line("cancel")?;
            self.passed()?;
            self.not_ended(stage)?;
        }
        for stage in [&IN_DATA, &STATUS_OF_NONE, &BULK_IN] {
            self.started(stage, "9")?;
            self.step(stage.way, 0, INTR_BUFF_STATUS, 0x8041)?;
            self.passed()?;
        }
        self.short_buffers()?;
        self.nothing_ended()
    }

    /// Callers 1 and 6 wait; 2's transfer is in this stage.
    fn started(&mut self, stage: &Stage, what: &str) -> io::Result<()> {
        self.case(&format!("callers, {}: {what}", stage.name))?;
        self.come_and_start(2, stage.lines[0])?;
        self.lines(&stage.lines[1..])?;
        self.come_all(&[1, 6])
    }

    /// To 6, though 7 comes after the end; then 6 runs.
    fn passed(&mut self) -> io::Result<()> {
        self.come_all(&[7, 2])?;
        self.lines(&["look", "start-bulk-in 0", COMPLETE_IN, "look", "record"])
    }

    /// Steps refused by 15 or 16, waiting ones, refused starts, pipes, interrupts and
    /// detection: nobody's turn until the cancel, and the turn is 6's then.
    fn not_ended(&mut self, stage: &Stage) -> io::Result<()> {
        self.started(stage, "calls that don't end it")?;
        self.line("lend 4095 192")?;
        self.step(stage.way, 0x2000_0000, 0x400, 0)?;
        self.lines(&["look", "lend 4096 191"])?;
        self.step(stage.way, 0x2000_0000, 0x400, 0)?;
        self.lines(&["look", "lend 4096 192", "buffer seq:21:0:0"])?;
        self.step(stage.way, 0x2000_0000, 0x400, 0)?;
        self.line("look")?;
        self.step(other(stage.way), 0x2000_0000, 0x400, 0)?;
        self.line("look")?;
        self.step(stage.way, 0, 0, 0)?;
        self.lines(&[
            "look",
            "start-bulk-in 0",
            "open 3 0 1 8 10",
            "poll 1 0x8002 0x00010003",
            "irq 0x7f8 0xffffffff",
            "detect 0x200",
            "close 1",
            "look",
            "cancel",
        ])?;
        self.passed()
    }

    /// 7, for In and Out.
    fn short_buffers(&mut self) -> io::Result<()> {
        for (begin, step) in [
            ("control-in 9 0 8 8006000100001400 19", COMPLETE_IN),
            (
                "control-out 9 0 8 2109000000001400 seq:19:1:1",
                COMPLETE_OUT,
            ),
        ] {
            self.case(&format!("callers, 7: {begin}"))?;
            self.come_and_start(2, begin)?;
            self.come_all(&[1, 6])?;
            self.line(step)?;
            self.passed()?;
        }
        Ok(())
    }

    /// A turn that was given stays: steps and cancels find nothing to serve.
    fn nothing_ended(&mut self) -> io::Result<()> {
        self.case("callers: cancel and steps with nothing under way")?;
        self.lines(&["cancel", COMPLETE_IN, "look"])?;
        self.come_all(&[5, 6])?;
        self.lines(&["cancel", "look", COMPLETE_IN, COMPLETE_OUT, "look"])?;
        self.lines(&[
            "start-bulk-in 0",
            COMPLETE_IN,
            "cancel",
            COMPLETE_IN,
            "look",
        ])?;
        self.come(0, BULK_OUT)?;
        self.come(5, SHORT)?;
        self.lines(&[
            "look",
            "cancel",
            "look",
            "start-bulk-in 0",
            "cancel",
            "look",
        ])
    }
}

fn other(way: Way) -> Way {
    match way {
        Way::In => Way::Out,
        Way::Out => Way::In,
    }
}
