//! `oracle bench`: the workloads of docs/BENCHMARKS.md on the Rust's own futures, each
//! polled as the port is called.

use crate::driver::{self, show};
use crate::host_controller::{
    DataPhase, HostController, TransferExtras, TransferType, UsbError,
};
use crate::rp2040::Rp2040HostController;
use crate::script::{Step, Way};
use crate::standins::{gate, memory};
use crate::wire::SetupPacket;
use std::cell::Cell;
use std::future::Future;
use std::hint::black_box;
use std::io::{self, Read, Write};
use std::pin::{pin, Pin};
use std::task::{Context, Poll, Waker};

const COMPLETE: u32 = 1 << 18;
const BUFFER: usize = 65_535;
const CONTROLS: u32 = 1000;
const WAITING_STEPS: u32 = 100_000;

struct Bench {
    controller: &'static Rp2040HostController,
    buffer: Vec<u8>,
    count: u64,
}

/// Runs the workloads that the letters name and prints what they left.
pub fn bench(letters: impl Read, out: &mut impl Write) -> io::Result<()> {
    let mut bench = Bench {
        controller: driver::controller().0,
        buffer: filled(BUFFER),
        count: 0,
    };
    memory::clear();
    memory::hardware_wrote(0, &filled(memory::PACKET_MEMORY));
    for letter in letters.bytes().take(16) {
        bench.run(letter?);
    }
    let buffer = sum(bench.buffer.iter().map(|byte| u64::from(*byte)));
    let packet_memory = sum(memory::packet_memory().map(u64::from));
    let log = sum(memory::log_words().map(u64::from));
    let count = bench.count;
    writeln!(
        out,
        "count {count} buffer {buffer} memory {packet_memory} log {log}"
    )
}

fn filled(length: usize) -> Vec<u8> {
    (0..length).map(|i| (i % 251) as u8).collect()
}

fn sum(numbers: impl IntoIterator<Item = u64>) -> u64 {
    let mixed = |sum, number| (sum * 31 + number) % 0xffff_fffb;
    numbers.into_iter().fold(0, mixed)
}

impl Bench {
    fn run(&mut self, letter: u8) {
        match letter {
            b'A' => self.bulk_out(8, 4095),
            b'B' => self.bulk_out(64, 511),
            b'C' => self.bulk_in(8, 4095),
            b'D' => self.bulk_in(64, 511),
            b'E' => self.controls(),
            b'F' => self.waiting(),
            _ => {}
        }
    }

    #[inline(never)]
    fn bulk_out(&mut self, size: u16, steps: u32) {
        let toggle = Cell::new(false);
        let kind = TransferType::FixedSize;
        let mut transfer = pin!(self.controller.bulk_out_transfer(
            5,
            2,
            size,
            &self.buffer,
            kind,
            &toggle
        ));
        begin(transfer.as_mut());
        for _ in 0..steps {
            step(transfer.as_mut(), moved(0, 0));
        }
        self.count += step(transfer, moved(COMPLETE, 0));
    }

    #[inline(never)]
    fn bulk_in(&mut self, size: u16, steps: u32) {
        let full = (0x8000 + u32::from(size)) * 0x1_0001;
        let toggle = Cell::new(false);
        let kind = TransferType::FixedSize;
        let mut transfer = pin!(self.controller.bulk_in_transfer(
            5,
            2,
            size,
            &mut self.buffer,
            kind,
            &toggle
        ));
        begin(transfer.as_mut());
        for _ in 0..steps {
            step(transfer.as_mut(), moved(0, full));
        }
        self.count += step(transfer, moved(COMPLETE, full));
    }

    #[inline(never)]
    fn controls(&mut self) {
        let controller = self.controller;
        for i in 0..CONTROLS {
            self.count += match i % 3 {
                0 => {
                    let phase = DataPhase::In(&mut self.buffer[..18]);
                    control(controller, setup(0x80, 6, 18), phase, &[0, 0x8012, 0])
                }
                1 => {
                    let phase = DataPhase::Out(&self.buffer[..10]);
                    control(controller, setup(0x21, 9, 10), phase, &[0, 0, 0x8000])
                }
                _ => control(controller, setup(0, 9, 0), DataPhase::None, &[0, 0x8000]),
            };
        }
    }

    #[inline(never)]
    fn waiting(&mut self) {
        let toggle = Cell::new(false);
        let kind = TransferType::FixedSize;
        let mut transfer = pin!(self.controller.bulk_in_transfer(
            5,
            2,
            64,
            &mut self.buffer,
            kind,
            &toggle
        ));
        begin(transfer.as_mut());
        for _ in 0..WAITING_STEPS {
            step(transfer.as_mut(), sample(0, 0, 0x0440_0440));
        }
    }
}

/// A control transfer, each stage reported complete with this EP_BUFFER_CONTROL.
fn control(
    controller: &Rp2040HostController,
    setup: SetupPacket,
    phase: DataPhase,
    stages: &[u32],
) -> u64 {
    let extras = TransferExtras::Normal;
    let mut transfer = pin!(controller.control_transfer(5, extras, 64, setup, phase));
    begin(transfer.as_mut());
    stages
        .iter()
        .map(|buffers| step(transfer.as_mut(), sample(COMPLETE, 8, *buffers)))
        .sum()
}

fn setup(kind: u8, request: u8, length: u16) -> SetupPacket {
    SetupPacket {
        bmRequestType: kind,
        bRequest: request,
        wValue: 0x100,
        wIndex: 0,
        wLength: length,
    }
}

fn sample(sie_status: u32, intr: u32, buffer_control: u32) -> Step {
    Step::new(Way::In, sie_status, intr, buffer_control)
}

fn moved(sie_status: u32, buffer_control: u32) -> Step {
    sample(sie_status, 0x10, buffer_control)
}

/// The future up to the first poll of `Rp2040ControlEndpoint`.
fn begin(transfer: Pin<&mut impl Future>) {
    memory::forget_log();
    let polled = transfer.poll(&mut Context::from_waker(Waker::noop()));
    assert!(polled.is_pending());
}

/// One poll of `Rp2040ControlEndpoint`; the count if the transfer is done, else 0.
fn step(
    transfer: Pin<&mut impl Future<Output = Result<usize, UsbError>>>,
    sample: Step,
) -> u64 {
    // The compiler shall not know what the sample says.
    show(&black_box(sample));
    gate::permit();
    memory::forget_log();
    match transfer.poll(&mut Context::from_waker(Waker::noop())) {
        Poll::Ready(Ok(count)) => count as u64,
        Poll::Ready(Err(_)) | Poll::Pending => 0,
    }
}
