//! log: macros that check their arguments and write nothing.

macro_rules! silent {
    ($($argument:tt)*) => {
        if false {
            let _ = format_args!($($argument)*);
        }
    };
}

pub(crate) use silent as debug;
pub(crate) use silent as error;
pub(crate) use silent as info;
pub(crate) use silent as trace;
pub(crate) use silent as warn;
