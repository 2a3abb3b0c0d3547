//! The register crate `rp2040_pac`, as far as the Rust uses it: registers with `read`,
//! `write` and `modify`, in the manner of svd2rust, over `memory`. Addresses and bits
//! are the RP2040 datasheet's (4.1.4). Names are the crate's, which no lint likes.
#![allow(non_camel_case_types)]
#![allow(clippy::upper_case_acronyms, clippy::wrong_self_convention)]

use super::memory::{self, Write};
use std::marker::PhantomData;

/// A slot of packet memory, and so a packet, has at most this many bytes.
const SLOT: u16 = 64;

/// What unwinds out of the Rust where document 01 refuses with 9.
pub struct SlotTooLong;

/// A kind of register.
pub trait RegisterSpec {
    /// What a `write` starts from.
    const RESET: u32;
}

pub struct Reg<S> {
    address: u32,
    spec: PhantomData<S>,
}

/// A value read from a register.
pub struct R<S> {
    register: u32,
    bits: u32,
    spec: PhantomData<S>,
}

/// A value to be written to a register.
pub struct W<S> {
    bits: u32,
    spec: PhantomData<S>,
}

impl<S: RegisterSpec> Reg<S> {
    const fn at(address: u32) -> Self {
        Self {
            address,
            spec: PhantomData,
        }
    }

    /// `N` registers, one word after the other.
    const fn from<const N: usize>(first: u32) -> [Self; N] {
        let mut registers = [const { Self::at(0) }; N];
        let mut i = 0;
        while i < N {
            registers[i].address = first + 4 * i as u32;
            i += 1;
        }
        registers
    }

    pub fn read(&self) -> R<S> {
        self.holding(memory::register(self.address))
    }

    /// The hardware shows this value.
    pub fn sample(&self, bits: u32) {
        memory::sample(self.address, bits);
    }

    /// Logged with a mask of all ones.
    pub fn write<F>(&self, f: F)
    where
        F: for<'w> Fn(&'w mut W<S>) -> &'w mut W<S>,
    {
        let mut w = W::of(S::RESET);
        f(&mut w);
        memory::perform(Write {
            register: self.address,
            mask: u32::MAX,
            value: w.bits,
        });
    }

    /// Logged with the bits that `f` forces: those that come out the same whether they
    /// went in as 0 or as 1.
    pub fn modify<F>(&self, f: F)
    where
        F: for<'w> Fn(&R<S>, &'w mut W<S>) -> &'w mut W<S>,
    {
        let outcome = |before: u32| {
            let mut w = W::of(before);
            f(&self.holding(before), &mut w);
            w.bits
        };
        let (from_zeros, from_ones) = (outcome(0), outcome(u32::MAX));
        let mask = !(from_zeros ^ from_ones);
        let write = Write {
            register: self.address,
            mask,
            value: from_zeros & mask,
        };
        let before = memory::register(self.address);
        debug_assert_eq!(
            outcome(before),
            before & !mask | write.value,
            "a modify that is no masked store"
        );
        memory::perform(write);
    }

    fn holding(&self, bits: u32) -> R<S> {
        R {
            register: self.address,
            bits,
            spec: PhantomData,
        }
    }
}

impl<S> R<S> {
    pub fn bits(&self) -> u32 {
        self.bits
    }

    fn field(&self, at: u32, width: u32) -> u32 {
        self.bits >> at & ones(width)
    }
}

impl<S> W<S> {
    fn of(bits: u32) -> Self {
        Self {
            bits,
            spec: PhantomData,
        }
    }

    /// # Safety
    /// Unsafe only because it is so in the crate.
    pub unsafe fn bits(&mut self, bits: u32) -> &mut Self {
        self.bits = bits;
        self
    }

    fn set_field(&mut self, at: u32, width: u32, value: u32) -> &mut Self {
        self.bits &= !(ones(width) << at);
        self.bits |= (value & ones(width)) << at;
        self
    }
}

fn ones(width: u32) -> u32 {
    u32::MAX >> (32 - width)
}

pub struct BitReader(bool);

impl BitReader {
    pub fn bit(&self) -> bool {
        self.0
    }
}

pub struct FieldReader<T>(T);

impl<T: Copy> FieldReader<T> {
    pub fn bits(&self) -> T {
        self.0
    }
}

pub struct BitWriter<'a, S> {
    w: &'a mut W<S>,
    at: u32,
}

impl<'a, S> BitWriter<'a, S> {
    pub fn bit(self, value: bool) -> &'a mut W<S> {
        self.w.set_field(self.at, 1, value.into())
    }

    pub fn set_bit(self) -> &'a mut W<S> {
        self.bit(true)
    }

    pub fn clear_bit(self) -> &'a mut W<S> {
        self.bit(false)
    }
}

pub struct FieldWriter<'a, S, T> {
    w: &'a mut W<S>,
    at: u32,
    width: u32,
    value: PhantomData<T>,
}

impl<'a, S, T: Into<u32>> FieldWriter<'a, S, T> {
    fn new(w: &'a mut W<S>, at: u32, width: u32) -> Self {
        Self {
            w,
            at,
            width,
            value: PhantomData,
        }
    }

    /// # Safety
    /// Unsafe only because it is so in the crate.
    pub unsafe fn bits(self, value: T) -> &'a mut W<S> {
        self.w.set_field(self.at, self.width, value.into())
    }
}

pub struct EndpointTypeWriter<'a, S> {
    w: &'a mut W<S>,
}

impl<'a, S> EndpointTypeWriter<'a, S> {
    const AT: u32 = 26;

    pub fn control(self) -> &'a mut W<S> {
        self.w.set_field(Self::AT, 2, 0)
    }

    pub fn bulk(self) -> &'a mut W<S> {
        self.w.set_field(Self::AT, 2, 2)
    }

    pub fn interrupt(self) -> &'a mut W<S> {
        self.w.set_field(Self::AT, 2, 3)
    }
}

/// A kind of register: its reset value, and the fields that are read (r) or written (w),
/// each with its lowest bit and, unless it is a bit, width and type. `R` names what is
/// read from it.
macro_rules! register {
    ($module:ident $(:: $alias:ident)?, $register:ident, reset $reset:literal {
        $($way:ident $field:ident $place:tt,)*
    }) => {
        pub mod $module {
            pub struct Spec;
            $(pub type $alias = super::$alias<Spec>;)?
        }
        pub type $register = Reg<$module::Spec>;

        impl RegisterSpec for $module::Spec {
            const RESET: u32 = $reset;
        }

        $(register!(@ $way $module $field $place);)*
    };
    (@ r $module:ident $field:ident ($at:literal)) => {
        impl R<$module::Spec> {
            pub fn $field(&self) -> BitReader {
                BitReader(self.field($at, 1) != 0)
            }
        }
    };
    (@ r $module:ident $field:ident ($at:literal, $width:literal, $type:ty)) => {
        impl R<$module::Spec> {
            pub fn $field(&self) -> FieldReader<$type> {
                FieldReader(self.field($at, $width) as $type)
            }
        }
    };
    (@ w $module:ident $field:ident ($at:literal)) => {
        impl W<$module::Spec> {
            pub fn $field(&mut self) -> BitWriter<'_, $module::Spec> {
                BitWriter { w: self, at: $at }
            }
        }
    };
    (@ w $module:ident $field:ident ($at:literal, $width:literal, $type:ty)) => {
        impl W<$module::Spec> {
            pub fn $field(&mut self) -> FieldWriter<'_, $module::Spec, $type> {
                FieldWriter::new(self, $at, $width)
            }
        }
    };
    (@ w $module:ident $field:ident (endpoint_type)) => {
        impl W<$module::Spec> {
            pub fn $field(&mut self) -> EndpointTypeWriter<'_, $module::Spec> {
                EndpointTypeWriter { w: self }
            }
        }
    };
}

/// A register block: its registers, and the accessors of the peripheral.
macro_rules! peripheral {
    ($peripheral:ident {
        $($register:ident: $type:ty = $address:literal,)*
        $([$array:ident; $count:literal]: $element:ty = $first:literal,)*
    }) => {
        pub struct $peripheral;

        impl $peripheral {
            /// # Safety
            /// Unsafe only because it is so in the crate.
            pub unsafe fn steal() -> Self {
                Self
            }

            $(pub fn $register(&self) -> &$type {
                static REGISTER: $type = Reg::at($address);
                &REGISTER
            })*

            $(pub fn $array(&self, n: usize) -> &$element {
                static REGISTERS: [$element; $count] = Reg::from($first);
                &REGISTERS[n]
            })*
        }
    };
}

pub mod usbctrl_dpram {
    use super::*;

    register!(setup_packet_low, SETUP_PACKET_LOW, reset 0 {
        w bmrequesttype (0, 8, u8),
        w brequest (8, 8, u8),
        w wvalue (16, 16, u16),
    });

    register!(setup_packet_high, SETUP_PACKET_HIGH, reset 0 {
        w windex (0, 16, u16),
        w wlength (16, 16, u16),
    });

    register!(ep_control, EP_CONTROL, reset 0 {
        w buffer_address (0, 16, u16),
        w host_poll_interval (16, 10, u16),
        w endpoint_type (endpoint_type),
        w interrupt_per_buff (29),
        w enable (31),
    });

    register!(epx_control, EPX_CONTROL, reset 0 {
        w buffer_address (0, 16, u16),
        w endpoint_type (endpoint_type),
        w interrupt_per_buff (29),
        w double_buffered (30),
        w enable (31),
    });

    register!(ep_buffer_control, EP_BUFFER_CONTROL, reset 0 {
        w length_0 (0, 10, u16),
        r available_0 (10),
        w available_0 (10),
        w pid_0 (13),
        w last_0 (14),
        r full_0 (15),
        w full_0 (15),
        w length_1 (16, 10, u16),
        r available_1 (26),
        w available_1 (26),
        w pid_1 (29),
        w last_1 (30),
        r full_1 (31),
        w full_1 (31),
    });
}

impl R<usbctrl_dpram::ep_buffer_control::Spec> {
    pub fn length_0(&self) -> FieldReader<u16> {
        self.slot_length(0)
    }

    pub fn length_1(&self) -> FieldReader<u16> {
        self.slot_length(16)
    }

    /// Document 01, "step, IN retire": 9, slot length above 64; that packet isn't
    /// copied. Of EPX's buffer control the Rust reads a length only in
    /// `InDepacketiser::retire`, of a slot in flight that is full, before it copies; so
    /// the Rust ends here, with the log and the bytes it has made up to the retire.
    /// A pipe's length (`Rp2040InterruptPipe::poll`) may be above 64.
    fn slot_length(&self, at: u32) -> FieldReader<u16> {
        let length = self.field(at, 10) as u16;
        if self.register == EPX_BUFFER_CONTROL && length > SLOT {
            std::panic::resume_unwind(Box::new(SlotTooLong));
        }
        FieldReader(length)
    }
}

pub mod usbctrl_regs {
    use super::*;

    register!(addr_endp, ADDR_ENDP, reset 0 {
        w address (0, 7, u8),
        w endpoint (16, 4, u8),
    });

    register!(host_addr_endp, HOST_ADDR_ENDP, reset 0 {
        r address (0, 7, u8),
        w address (0, 7, u8),
        r endpoint (16, 4, u8),
        w endpoint (16, 4, u8),
        w intep_dir (25),
        w intep_preamble (26),
    });

    register!(main_ctrl, MAIN_CTRL, reset 0 {
        w controller_en (0),
        w host_ndevice (1),
        w sim_timing (31),
    });

    register!(sie_ctrl, SIE_CTRL, reset 0 {
        w start_trans (0),
        w send_setup (1),
        w send_data (2),
        w receive_data (3),
        w preamble_en (6),
        w sof_en (9),
        w keep_alive_en (10),
        w vbus_en (11),
        w reset_bus (13),
        w pulldown_en (15),
    });

    register!(sie_status::R, SIE_STATUS, reset 0 {
        r speed (8, 2, u8),
        r trans_complete (18),
        r crc_error (24),
        r bit_stuff_error (25),
        r rx_overflow (26),
        r rx_timeout (27),
        r stall_rec (29),
        r data_seq_error (31),
    });

    register!(nak_poll, NAK_POLL, reset 0x0010_0010 {
        w delay_ls (0, 10, u16),
        w delay_fs (16, 10, u16),
    });

    register!(usb_muxing, USB_MUXING, reset 0 {
        w to_phy (0),
        w softcon (3),
    });

    register!(usb_pwr, USB_PWR, reset 0 {
        w vbus_detect (2),
        w vbus_detect_override_en (3),
    });

    register!(inte, INTE, reset 0 {
        w host_conn_dis (0),
        w trans_complete (3),
        w buff_status (4),
        w error_data_seq (5),
        w error_rx_timeout (6),
        w error_rx_overflow (7),
        w error_bit_stuff (8),
        w error_crc (9),
        w stall (10),
    });

    register!(ints, INTS, reset 0 {
        r buff_status (4),
    });

    // Used only as whole words.
    register!(int_ep_ctrl, INT_EP_CTRL, reset 0 {});
    register!(buff_status, BUFF_STATUS, reset 0 {});
    register!(buff_cpu_should_handle, BUFF_CPU_SHOULD_HANDLE, reset 0 {});
    register!(ep_status_stall_nak, EP_STATUS_STALL_NAK, reset 0 {});
    register!(intr, INTR, reset 0 {});
}

pub mod resets {
    use super::*;

    register!(reset, RESET, reset 0x01ff_ffff {
        w usbctrl (24),
    });
}

/// `ep_buffer_control(0)`.
pub const EPX_BUFFER_CONTROL: u32 = 0x5010_0080;

peripheral!(USBCTRL_DPRAM {
    setup_packet_low: usbctrl_dpram::SETUP_PACKET_LOW = 0x5010_0000,
    setup_packet_high: usbctrl_dpram::SETUP_PACKET_HIGH = 0x5010_0004,
    epx_control: usbctrl_dpram::EPX_CONTROL = 0x5010_0100,
    [ep_control; 30]: usbctrl_dpram::EP_CONTROL = 0x5010_0008,
    [ep_buffer_control; 32]: usbctrl_dpram::EP_BUFFER_CONTROL = 0x5010_0080,
});

peripheral!(USBCTRL_REGS {
    addr_endp: usbctrl_regs::ADDR_ENDP = 0x5011_0000,
    main_ctrl: usbctrl_regs::MAIN_CTRL = 0x5011_0040,
    sie_ctrl: usbctrl_regs::SIE_CTRL = 0x5011_004c,
    sie_status: usbctrl_regs::SIE_STATUS = 0x5011_0050,
    int_ep_ctrl: usbctrl_regs::INT_EP_CTRL = 0x5011_0054,
    buff_status: usbctrl_regs::BUFF_STATUS = 0x5011_0058,
    buff_cpu_should_handle: usbctrl_regs::BUFF_CPU_SHOULD_HANDLE = 0x5011_005c,
    nak_poll: usbctrl_regs::NAK_POLL = 0x5011_006c,
    ep_status_stall_nak: usbctrl_regs::EP_STATUS_STALL_NAK = 0x5011_0070,
    usb_muxing: usbctrl_regs::USB_MUXING = 0x5011_0074,
    usb_pwr: usbctrl_regs::USB_PWR = 0x5011_0078,
    intr: usbctrl_regs::INTR = 0x5011_008c,
    inte: usbctrl_regs::INTE = 0x5011_0090,
    ints: usbctrl_regs::INTS = 0x5011_0098,
    [host_addr_endp; 15]: usbctrl_regs::HOST_ADDR_ENDP = 0x5011_0004,
});

peripheral!(RESETS {
    reset: resets::RESET = 0x4000_c000,
});

#[cfg(test)]
mod tests {
    use super::*;

    const REGS: USBCTRL_REGS = USBCTRL_REGS;
    const INTE: u32 = 0x5011_0090;

    /// The one write logged.
    fn logged() -> (u32, u32, u32) {
        let log = memory::take_log();
        assert_eq!(log.len(), 1);
        (log[0].register, log[0].mask, log[0].value)
    }

    #[test]
    fn a_write_touches_all_bits() {
        REGS.nak_poll().write(|w| unsafe { w.delay_fs().bits(10) });
        assert_eq!(logged(), (0x5011_006c, u32::MAX, 0x000a_0010));
        assert_eq!(REGS.nak_poll().read().bits(), 0x000a_0010);
    }

    #[test]
    fn a_modify_touches_the_bits_it_sets_or_clears() {
        REGS.inte().sample(0x7ff);
        REGS.inte()
            .modify(|_, w| w.stall().set_bit().error_crc().clear_bit());
        assert_eq!(logged(), (INTE, 0x600, 0x400));
        assert_eq!(REGS.inte().read().bits(), 0x5ff);
    }

    #[test]
    fn a_modify_by_bits_touches_what_it_forces() {
        REGS.inte().sample(0x10);
        REGS.inte()
            .modify(|r, w| unsafe { w.bits(r.bits() & !0x11) });
        assert_eq!(logged(), (INTE, 0x11, 0));
        assert_eq!(REGS.inte().read().bits(), 0);
        REGS.inte().modify(|r, w| unsafe { w.bits(r.bits() | 4) });
        assert_eq!(logged(), (INTE, 4, 4));
        REGS.inte().modify(|r, w| unsafe { w.bits(r.bits()) });
        assert_eq!(logged(), (INTE, 0, 0));
        assert_eq!(REGS.inte().read().bits(), 4);
    }

    #[test]
    #[should_panic(expected = "no masked store")]
    fn a_modify_must_be_a_masked_store() {
        REGS.inte().sample(1);
        REGS.inte().modify(|r, w| unsafe { w.bits(r.bits() << 1) });
    }

    #[test]
    fn a_field_keeps_to_its_width() {
        REGS.addr_endp().write(|w| unsafe {
            w.endpoint().bits(0xff);
            w.address().bits(0x80)
        });
        assert_eq!(logged(), (0x5011_0000, u32::MAX, 0x000f_0000));
    }

    #[test]
    fn registers_lie_where_the_datasheet_says() {
        assert_eq!(USBCTRL_DPRAM.ep_control(28).address, 0x5010_0078);
        assert_eq!(
            USBCTRL_DPRAM.ep_buffer_control(0).address,
            EPX_BUFFER_CONTROL
        );
        assert_eq!(USBCTRL_DPRAM.ep_buffer_control(30).address, 0x5010_00f8);
        assert_eq!(REGS.host_addr_endp(14).address, 0x5011_003c);
    }

    #[test]
    fn only_epx_ends_at_a_long_slot() {
        let length = |n: usize, bits: u32| {
            USBCTRL_DPRAM.ep_buffer_control(n).sample(bits);
            let r = USBCTRL_DPRAM.ep_buffer_control(n).read();
            std::panic::catch_unwind(|| (r.length_0().bits(), r.length_1().bits()))
        };
        assert_eq!(length(0, 0x0040_0040).unwrap(), (64, 64));
        assert!(length(0, 0x0041_0040).unwrap_err().is::<SlotTooLong>());
        assert!(length(0, 0x0000_0041).unwrap_err().is::<SlotTooLong>());
        assert_eq!(length(2, 0x0041_03ff).unwrap(), (1023, 65));
    }
}
