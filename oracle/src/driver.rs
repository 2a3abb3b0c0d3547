//! The Rust's calls, one at a time: futures become begin, steps and cancel.

use crate::host_controller::{DeviceStatus, HostController, InterruptPacket};
use crate::rp2040::{
    view, Rp2040DeviceDetect, Rp2040HostController, Rp2040InterruptPipe, UsbShared,
    UsbStatics,
};
use crate::rules::{self, check, Lent};
use crate::runs::{self, Run};
use crate::script::{self, Begin, Open, Step};
use crate::standins::futures::Stream;
use crate::standins::rp2040_pac::{RESETS, USBCTRL_DPRAM, USBCTRL_REGS};
use crate::standins::{gate, memory};
use crate::transfer::{extras, number, Transfer};
use std::pin::Pin;
use std::task::{Context, Poll, Waker};

/// A refused call did nothing; a failed step ended its transfer in an error.
pub enum Answer {
    Ok,
    Begun,
    /// The dispatcher's: a caller waits.
    Come,
    /// Whose turn it is.
    Turn(Option<u8>),
    /// The caller whose transfer was begun.
    Started(u8),
    Waiting {
        again: bool,
    },
    Done {
        count: usize,
        toggle: Option<bool>,
    },
    Refused(u8),
    /// A bulk transfer's toggle as the Rust left it, here and in `Cancelled`.
    Failed {
        number: u8,
        toggle: Option<bool>,
    },
    Cancelled {
        toggle: Option<bool>,
    },
    Closed,
    Pipe(u8),
    Packet(InterruptPacket),
    Wake {
        pipes: u16,
        detection: bool,
    },
    Device(DeviceStatus),
}

impl Answer {
    /// Whether a step or cancel that answers so ended its transfer.
    pub fn is_end(&self) -> bool {
        matches!(
            self,
            Answer::Done { .. } | Answer::Failed { .. } | Answer::Cancelled { .. }
        )
    }
}

pub struct Driver {
    controller: &'static Rp2040HostController,
    shared: &'static UsbShared,
    detection: Rp2040DeviceDetect,
    transfer: Option<Transfer>,
    /// Pipe n at n - 1.
    pipes: [Option<Rp2040InterruptPipe>; 15],
}

const REGS: USBCTRL_REGS = USBCTRL_REGS;
const DPRAM: USBCTRL_DPRAM = USBCTRL_DPRAM;

/// A controller. What the Rust borrows for ever is leaked, some hundred bytes.
pub fn controller() -> (&'static Rp2040HostController, &'static UsbShared) {
    let mut resets = unsafe { RESETS::steal() };
    let shared: &UsbShared = Box::leak(Box::new(UsbShared::new()));
    let statics: &UsbStatics = Box::leak(Box::new(UsbStatics::new()));
    let new = Rp2040HostController::new(&mut resets, REGS, DPRAM, shared, statics);
    (Box::leak(Box::new(new)), shared)
}

/// The registers show a step's sample.
pub fn show(step: &Step) {
    REGS.sie_status().sample(step.sie_status);
    REGS.intr().sample(step.intr);
    DPRAM.ep_buffer_control(0).sample(step.buffer_control);
}

impl Driver {
    /// Registers and packet memory are all 0.
    pub fn fresh() -> Self {
        let (controller, shared) = controller();
        // Document 01: the register writes of `new` stay with the glue.
        memory::clear();
        Self {
            controller,
            shared,
            detection: controller.device_detect(),
            transfer: None,
            pipes: Default::default(),
        }
    }

    /// The future, made and polled up to the first poll of `Rp2040ControlEndpoint`.
    pub fn begin(&mut self, lent: Lent, begin: &Begin) -> Result<Answer, u8> {
        lent.both()?;
        rules::begin(self.transfer.is_some(), begin)?;
        let mut transfer = Transfer::new(self.controller, begin);
        let polled = transfer.poll();
        self.transfer = Some(transfer);
        match polled {
            Poll::Pending => Ok(Answer::Begun),
            Poll::Ready(_) => unreachable!("a begin ends at the first poll"),
        }
    }

    /// One poll of `Rp2040ControlEndpoint` and the code up to the next. `own` are the
    /// bytes lent to this step instead of the transfer's. An `Err` has not acted.
    pub fn step(
        &mut self,
        lent: Lent,
        step: &Step,
        own: Option<&[u8]>,
    ) -> Result<(Answer, Vec<Run>), u8> {
        lent.both()?;
        // Document 01, "step, cancel": 16, nothing under way that this call serves.
        let transfer = match &mut self.transfer {
            Some(transfer) if transfer.is_served_by(step.way) => transfer,
            _ => return Err(rules::NOTHING_TO_SERVE),
        };
        // The same row, step only: 15, buffer length not that of begin.
        if let Some(own) = own {
            check(own.len() == transfer.buffer.len(), rules::LENT)?;
        }

        show(step);
        let kept = transfer.buffer.bytes();
        let before = own.unwrap_or(&kept);
        transfer.buffer.fill(before);
        gate::permit();
        let polled = transfer.poll();
        let after = transfer.buffer.bytes();
        let changed = runs::changed(before, &after);
        if own.is_some() {
            transfer.buffer.fill(&kept);
        }

        let answer = match polled {
            Poll::Pending => Answer::Waiting {
                again: gate::turned_away(),
            },
            Poll::Ready(Ok(count)) => Answer::Done {
                count,
                toggle: transfer.toggle(),
            },
            Poll::Ready(Err(number)) => Answer::Failed {
                number,
                toggle: transfer.toggle(),
            },
        };
        if polled.is_ready() {
            self.transfer = None;
        }
        Ok((answer, changed))
    }

    /// The future is dropped.
    pub fn cancel(&mut self) -> Result<Answer, u8> {
        // Document 01, "step, cancel": 16, nothing under way.
        let transfer = self.transfer.take().ok_or(rules::NOTHING_TO_SERVE)?;
        let toggle = transfer.toggle_after_drop();
        Ok(Answer::Cancelled { toggle })
    }

    pub fn open(&mut self, lent: Lent, open: &Open) -> Result<Answer, u8> {
        lent.log()?;
        rules::open(open)?;
        let pipe = self
            .controller
            .try_alloc_interrupt_pipe(
                open.address,
                extras(open.preamble),
                open.endpoint,
                open.size,
                open.interval,
            )
            .map_err(number)?;
        let n = view::pipe_number(&pipe);
        self.pipes[usize::from(n) - 1] = Some(pipe);
        Ok(Answer::Pipe(n))
    }

    /// The pipe is dropped.
    pub fn close(&mut self, pipe: u8) -> Result<Answer, u8> {
        let pipe = self.place(pipe)?.take();
        drop(pipe);
        Ok(Answer::Closed)
    }

    pub fn poll(&mut self, lent: Lent, poll: &script::Poll) -> Result<Answer, u8> {
        lent.both()?;
        let pipe = Pin::new(self.place(poll.pipe)?.as_mut().unwrap());
        let n = usize::from(poll.pipe);
        DPRAM.ep_buffer_control(2 * n).sample(poll.buffer_control);
        REGS.host_addr_endp(n - 1).sample(poll.host_addr_endp);
        Ok(match pipe.poll_next(&mut context()) {
            Poll::Ready(packet) => Answer::Packet(packet.expect("a pipe never ends")),
            Poll::Pending => Answer::Waiting { again: false },
        })
    }

    pub fn irq(&mut self, lent: Lent, ints: u32, buff_status: u32) -> Result<Answer, u8> {
        lent.log()?;
        REGS.ints().sample(ints);
        REGS.buff_status().sample(buff_status);
        self.shared.on_irq();
        let (pipes, detection) = view::take_woken(self.shared);
        Ok(Answer::Wake { pipes, detection })
    }

    pub fn detect(&mut self, lent: Lent, sie_status: u32) -> Result<Answer, u8> {
        lent.log()?;
        REGS.sie_status().sample(sie_status);
        Ok(
            match Pin::new(&mut self.detection).poll_next(&mut context()) {
                Poll::Ready(status) => {
                    Answer::Device(status.expect("detection never ends"))
                }
                Poll::Pending => Answer::Waiting { again: false },
            },
        )
    }

    /// Another stream of the same controller.
    #[cfg(test)]
    pub fn detect_anew(&mut self) {
        self.detection = self.controller.device_detect();
    }

    /// Where an open pipe is. Document 01, "poll, close pipe": 17, pipe not open, or its
    /// number not 1 to 15.
    fn place(&mut self, pipe: u8) -> Result<&mut Option<Rp2040InterruptPipe>, u8> {
        let index = usize::from(pipe).wrapping_sub(1);
        self.pipes
            .get_mut(index)
            .filter(|place| place.is_some())
            .ok_or(rules::NO_SUCH_PIPE)
    }
}

fn context() -> Context<'static> {
    Context::from_waker(Waker::noop())
}
