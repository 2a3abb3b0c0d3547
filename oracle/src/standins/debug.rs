//! `crate::debug` of cotton-usb-host: prints nothing.

macro_rules! println {
    ($($argument:tt)*) => {{}};
}
pub(crate) use println;
