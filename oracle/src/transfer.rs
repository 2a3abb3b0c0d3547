//! A transfer of the Rust: its future, polled step by step, and what it holds.

use crate::host_controller::{
    DataPhase, HostController, TransferExtras, TransferType, UsbError,
};
use crate::lent_buffer::LentBuffer;
use crate::rp2040::Rp2040HostController;
use crate::script::{Begin, Phase, Request, Way};
use crate::standins::rp2040_pac::SlotTooLong;
use crate::wire::SetupPacket;
use std::cell::Cell;
use std::future::Future;
use std::panic::{catch_unwind, resume_unwind, AssertUnwindSafe};
use std::pin::Pin;
use std::rc::Rc;
use std::task::{Context, Poll, Waker};

type TransferFuture = Pin<Box<dyn Future<Output = Result<usize, UsbError>>>>;

/// The future stands before the buffer, so it is dropped first.
pub struct Transfer {
    future: TransferFuture,
    pub buffer: LentBuffer,
    toggle: Option<Rc<Cell<bool>>>,
    way: Way,
}

impl Transfer {
    /// The call is made, its future not yet polled.
    pub fn new(controller: &'static Rp2040HostController, begin: &Begin) -> Self {
        let buffer = LentBuffer::new(begin.buffer.clone());
        // Sound: the future is dropped before the buffer.
        let lent = unsafe { buffer.lend() };
        let (future, toggle): (TransferFuture, _) = match begin.request {
            Request::Control {
                address,
                preamble,
                size,
                setup,
                phase,
            } => {
                let phase = match phase {
                    Phase::In => DataPhase::In(lent),
                    Phase::Out => DataPhase::Out(lent),
                    Phase::None => DataPhase::None,
                };
                let extras = extras(preamble);
                let setup = setup_packet(setup);
                let future =
                    controller.control_transfer(address, extras, size, setup, phase);
                (Box::pin(future), None)
            }
            Request::Bulk {
                address,
                endpoint,
                size,
                variable,
                toggle,
                way,
            } => {
                let kind = match variable {
                    false => TransferType::FixedSize,
                    true => TransferType::VariableSize,
                };
                let toggle = Rc::new(Cell::new(toggle));
                let held = toggle.clone();
                let future = async move {
                    if way == Way::In {
                        controller
                            .bulk_in_transfer(address, endpoint, size, lent, kind, &held)
                            .await
                    } else {
                        controller
                            .bulk_out_transfer(address, endpoint, size, lent, kind, &held)
                            .await
                    }
                };
                (Box::pin(future), Some(toggle))
            }
        };
        Self {
            future,
            buffer,
            toggle,
            way: begin.request.way(),
        }
    }

    pub fn is_served_by(&self, way: Way) -> bool {
        self.way == way
    }

    /// The bulk toggle as the Rust left it; a control has none.
    pub fn toggle(&self) -> Option<bool> {
        self.toggle.as_ref().map(|toggle| toggle.get())
    }

    /// The same, once the future is dropped.
    pub fn toggle_after_drop(self) -> Option<bool> {
        let Self { future, toggle, .. } = self;
        drop(future);
        toggle.map(|toggle| toggle.get())
    }

    /// Runs the Rust until it waits or ends, with a count or with document 01's number.
    pub fn poll(&mut self) -> Poll<Result<usize, u8>> {
        let mut context = Context::from_waker(Waker::noop());
        let future = self.future.as_mut();
        match catch_unwind(AssertUnwindSafe(|| future.poll(&mut context))) {
            Ok(polled) => polled.map_err(number),
            // Document 01, "step, IN retire": see `slot_length` of the register stand-in.
            Err(panic) if panic.is::<SlotTooLong>() => Poll::Ready(Err(9)),
            Err(panic) => resume_unwind(panic),
        }
    }
}

/// Numbers 1 to 11 follow the order of `UsbError`.
pub fn number(error: UsbError) -> u8 {
    error as u8 + 1
}

pub fn extras(preamble: bool) -> TransferExtras {
    match preamble {
        false => TransferExtras::Normal,
        true => TransferExtras::WithPreamble,
    }
}

fn setup_packet(bytes: [u8; 8]) -> SetupPacket {
    let word = |at: usize| u16::from_le_bytes([bytes[at], bytes[at + 1]]);
    SetupPacket {
        bmRequestType: bytes[0],
        bRequest: bytes[1],
        wValue: word(2),
        wIndex: word(4),
        wLength: word(6),
    }
}
