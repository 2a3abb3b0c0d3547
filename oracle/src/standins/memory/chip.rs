//! One chip per thread, so that tests don't meet; any register, a log of any length.

use super::{Write, PACKET_MEMORY};
use std::cell::{RefCell, UnsafeCell};
use std::collections::BTreeMap;

thread_local! {
    static REGISTERS: RefCell<BTreeMap<u32, u32>> = const { RefCell::new(BTreeMap::new()) };
    static LOG: RefCell<Vec<Write>> = const { RefCell::new(Vec::new()) };
    static BYTES: UnsafeCell<[u8; PACKET_MEMORY]> =
        const { UnsafeCell::new([0; PACKET_MEMORY]) };
}

pub fn clear_registers() {
    REGISTERS.with_borrow_mut(BTreeMap::clear);
}

pub fn register(address: u32) -> u32 {
    REGISTERS.with_borrow(|registers| registers.get(&address).copied().unwrap_or(0))
}

/// A register as the hardware shows it: not logged.
pub fn sample(address: u32, value: u32) {
    REGISTERS.with_borrow_mut(|registers| registers.insert(address, value));
}

pub fn log(write: Write) {
    LOG.with_borrow_mut(|log| log.push(write));
}

pub fn take_log() -> Vec<Write> {
    LOG.take()
}

pub fn forget_log() {
    LOG.with_borrow_mut(Vec::clear);
}

pub fn bytes() -> *mut [u8; PACKET_MEMORY] {
    BYTES.with(UnsafeCell::get)
}
