//! What the Rust leans on and what is not there: the register crate and the small
//! parts of other crates that it uses, over plain memory.

pub mod bytemuck;
pub mod cortex_m;
pub mod debug;
pub mod defmt;
pub mod futures;
pub mod gate;
pub mod memory;
pub mod rp2040_pac;
pub mod rtic_common;
