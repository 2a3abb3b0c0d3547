//! `defmt`: logs nothing. The arguments are not worked out; some are register reads,
//! which leave no trace in any case.

macro_rules! trace {
    ($($argument:tt)*) => {{}};
}
pub(crate) use trace;
