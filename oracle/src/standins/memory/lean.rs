//! The chip of the benchmark: plain cells at fixed places, and the log that a call of
//! the port writes, none with the feature `bare`.

#[cfg(test)]
compile_error!("the lean chip is for one thread");

use super::{Write, PACKET_MEMORY};
use std::cell::UnsafeCell;
use std::ptr;

const LOG_WORDS: usize = 192;

struct Chip {
    registers: [u32; 256],
    bytes: [u8; PACKET_MEMORY],
    log: [u32; LOG_WORDS],
    /// Words of the log that this call has written.
    logged: usize,
}

struct Cells(UnsafeCell<Chip>);

// Sound: there is one thread.
unsafe impl Sync for Cells {}

static CHIP: Cells = Cells(UnsafeCell::new(Chip {
    registers: [0; 256],
    bytes: [0; PACKET_MEMORY],
    log: [0; LOG_WORDS],
    logged: 0,
}));

fn chip() -> *mut Chip {
    CHIP.0.get()
}

/// The words of the DPRAM that are registers come first, then the registers proper.
fn place(address: u32) -> usize {
    let block = if address < 0x5011_0000 { 0 } else { 128 };
    block + (address >> 2 & 127) as usize
}

pub fn clear_registers() {
    // Sound, here and below: there is one thread, and no reference is kept.
    unsafe { (*chip()).registers = [0; 256] };
}

pub fn register(address: u32) -> u32 {
    unsafe { (*chip()).registers[place(address)] }
}

pub fn sample(address: u32, value: u32) {
    unsafe { (*chip()).registers[place(address)] = value };
}

pub fn log(write: Write) {
    if cfg!(feature = "bare") {
        return;
    }
    unsafe {
        let chip = &mut *chip();
        let at = chip.logged;
        chip.log[at] = write.register;
        chip.log[at + 1] = write.mask;
        chip.log[at + 2] = write.value;
        chip.logged = at + 3;
    }
}

pub fn take_log() -> Vec<Write> {
    let words = &log_words()[..unsafe { (*chip()).logged }];
    forget_log();
    words
        .chunks(3)
        .map(|write| Write {
            register: write[0],
            mask: write[1],
            value: write[2],
        })
        .collect()
}

pub fn forget_log() {
    unsafe { (*chip()).logged = 0 };
}

pub fn log_words() -> [u32; LOG_WORDS] {
    unsafe { (*chip()).log }
}

pub fn bytes() -> *mut [u8; PACKET_MEMORY] {
    unsafe { ptr::addr_of_mut!((*chip()).bytes) }
}
