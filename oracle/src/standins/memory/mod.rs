//! The memory behind the stand-ins: register values, the log of writes, and the chip's
//! DPRAM.

#[cfg_attr(feature = "lean", path = "lean.rs")]
mod chip;

pub use chip::*;

pub const PACKET_MEMORY: usize = 4096;

const DPRAM: u32 = 0x5010_0000;
/// Words of the DPRAM below this offset are registers.
const FIRST_BUFFER: usize = 0x180;

/// One write of a log, in document 01's three words. A delay is 0, 0, 12.
#[derive(Clone, Copy, Debug, PartialEq, Eq)]
pub struct Write {
    pub register: u32,
    pub mask: u32,
    pub value: u32,
}

/// All registers and all packet memory 0, nothing logged.
pub fn clear() {
    clear_registers();
    forget_log();
    hardware_wrote(0, &[0; PACKET_MEMORY]);
}

/// A write by the driver: done and logged.
pub fn perform(write: Write) {
    let kept = register(write.register) & !write.mask;
    sample(write.register, kept | write.value);
    log(write);
}

/// Where the byte that the chip has at `address` is kept. The driver stores and reads
/// only from 0x180 on.
pub fn dpram_address(address: u32) -> *mut u8 {
    let offset = (address - DPRAM) as usize;
    assert!((FIRST_BUFFER..PACKET_MEMORY).contains(&offset));
    bytes().cast::<u8>().wrapping_add(offset)
}

pub fn packet_memory() -> [u8; PACKET_MEMORY] {
    // Sound: the memory is this thread's, and no reference into it is ever kept.
    unsafe { *bytes() }
}

/// The hardware wrote packet memory.
pub fn hardware_wrote(offset: usize, new: &[u8]) {
    // Sound: as above.
    unsafe { (&mut *bytes())[offset..offset + new.len()].copy_from_slice(new) };
}
