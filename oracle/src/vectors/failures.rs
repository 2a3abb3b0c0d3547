//! Transfers that fail or are cancelled: how many entries each had started, and the
//! record after it and after the next whole transfer.

use super::stages::{
    Stage, BULK_IN, BULK_OUT, IN_DATA, STAGES, STATUS_OF_NONE, STATUS_OF_OUT,
};
use super::Vectors;
use crate::player::{ERRORS, INTR_BUFF_STATUS};
use crate::script::Way;
use std::io::{self, Write};

const STALL: &str = "step-out 0x20000000 0x400 0";
const COMPLETE: &str = "step-out 0x40000 8 0";

impl<W: Write> Vectors<W> {
    pub fn failures(&mut self) -> io::Result<()> {
        for stage in &STAGES {
            for error in ERRORS {
                self.failed(stage, &format!("error {error:#x}"), error, 0)?;
            }
            self.cancelled(stage)?;
        }
        self.too_small_buffers()?;
        self.too_long_slots()?;
        self.cancelled_begins()?;
        self.cancelled_later()?;
        self.refused_calls()?;
        self.in_a_row()
    }

    /// A step that ends the stage's transfer.
    fn failed(
        &mut self,
        stage: &Stage,
        what: &str,
        sie_status: u32,
        buffers: u32,
    ) -> io::Result<()> {
        self.reach(stage, what)?;
        self.step(stage.way, sie_status, INTR_BUFF_STATUS, buffers)?;
        self.gone(stage.way)
    }

    fn cancelled(&mut self, stage: &Stage) -> io::Result<()> {
        self.reach(stage, "cancel")?;
        self.line("cancel")?;
        self.gone(stage.way)
    }

    /// The record, which a step and a cancel of nothing leave as it is and a whole
    /// transfer goes on with.
    fn gone(&mut self, way: Way) -> io::Result<()> {
        self.line("record")?;
        self.step(way, 0, 0, 0)?;
        self.lines(&["cancel", "bulk-out 3 1 8 fixed 0 aa", COMPLETE, "record"])
    }

    /// 7 when SETUP is done, for In and Out.
    fn too_small_buffers(&mut self) -> io::Result<()> {
        self.case("7: In of 20, 19 lent")?;
        self.line("control-in 9 0 8 8006000100001400 19")?;
        self.step(Way::In, 0x40000, 8, 0)?;
        self.gone(Way::In)?;
        self.case("7: Out of 20, 19 lent")?;
        self.line("control-out 9 0 8 2109000000001400 seq:19:1:1")?;
        self.step(Way::Out, 0x40000, 8, 0)?;
        self.gone(Way::Out)
    }

    /// 9 wherever an IN slot is retired: in the first slot, and in the second after the
    /// first was retired.
    fn too_long_slots(&mut self) -> io::Result<()> {
        for stage in [&IN_DATA, &STATUS_OF_OUT, &STATUS_OF_NONE, &BULK_IN] {
            self.failed(stage, "9 in slot 0", 0, 0x8041)?;
        }
        for stage in [&IN_DATA, &BULK_IN] {
            self.failed(stage, "9 in slot 1, slot 0 retired", 0, 0x8041_8008)?;
        }
        Ok(())
    }

    /// The stages above have a control's SETUP, a bulk IN, and two packets armed.
    fn cancelled_begins(&mut self) -> io::Result<()> {
        for (what, bytes) in [("empty", "-"), ("whole", "seq:8:1:1")] {
            self.case(&format!("cancel: a bulk OUT of one {what} packet"))?;
            self.lines(&[&format!("bulk-out 5 2 8 fixed 0 {bytes}"), "cancel"])?;
            self.gone(Way::Out)?;
        }
        Ok(())
    }

    /// After several steps: more packets armed, one of them by a step that retired one;
    /// and the packets of an IN don't count.
    fn cancelled_later(&mut self) -> io::Result<()> {
        self.case("cancel: a bulk OUT after three steps")?;
        self.lines(&[
            "bulk-out 5 2 1 variable 0 seq:9:1:1",
            "step-out 0 0x10 0",
            "step-out 0 0 0",
            "step-out 0 0x10 0x84000000",
            "cancel",
        ])?;
        self.gone(Way::Out)?;
        self.case("cancel: data of an Out after two steps")?;
        self.lines(&[
            "control-out 9 0 8 2109000000001400 seq:20:1:1",
            COMPLETE,
            "step-out 0 0x10 0",
            "cancel",
        ])?;
        self.gone(Way::Out)?;
        self.case("cancel: a bulk IN after two steps")?;
        self.lines(&[
            "bulk-in 5 2 8 fixed 0 40",
            "step-in 0 0x10 0x80088008",
            "step-in 0 0x10 0x80088008",
            "cancel",
        ])?;
        self.gone(Way::In)
    }

    /// Refused begins, steps and cancels write nothing and leave the count as it is.
    fn refused_calls(&mut self) -> io::Result<()> {
        self.reach(&BULK_OUT, "refused calls, then a stall")?;
        self.lines(&[
            "bulk-out 5 2 8 fixed 0 00",
            "lend 4095 192",
            STALL,
            "bulk-out 5 2 8 fixed 0 00",
            "lend 4096 191",
            STALL,
            "lend 4096 192",
            "buffer seq:19:1:1",
            STALL,
            "step-in 0x20000000 0x400 0",
            "record",
            "step-out 0 0x10 0x84000000",
            STALL,
        ])?;
        self.gone(Way::Out)
    }

    fn in_a_row(&mut self) -> io::Result<()> {
        self.case("a failure after done, two in a row, and after a cancel")?;
        self.lines(&["bulk-out 5 2 8 fixed 0 seq:9:1:1", COMPLETE, "record"])?;
        for begin in [
            "bulk-out 5 2 8 fixed 0 seq:9:1:1",
            "control-out 9 0 8 2109000000000400 01020304",
        ] {
            self.lines(&[begin, STALL, "record"])?;
        }
        self.lines(&["bulk-out 5 2 8 fixed 0 seq:8:1:1", "cancel", "record"])?;
        self.lines(&[
            "control-out 9 0 8 2109000000000400 01020304",
            COMPLETE,
            STALL,
        ])?;
        self.gone(Way::Out)
    }
}
