//! Stand-in for the root of zCore's zircon-object crate: the modules that the task sources see, and
//! log macros that write nothing.

// The copied sources are not ours to tidy.
#![allow(unknown_lints)]
#![allow(dead_code, unused_imports, unused_variables, unexpected_cfgs, clippy::all)]
#![allow(ambiguous_glob_reexports, mismatched_lifetime_syntaxes)]

extern crate alloc;

/// Arguments are type-checked and never evaluated, as with a log level that is off.
macro_rules! quiet {
    ($($argument:tt)*) => {
        if false {
            let _ = format_args!($($argument)*);
        }
    };
}
macro_rules! debug {
    ($($argument:tt)*) => { quiet!($($argument)*) };
}
macro_rules! error {
    ($($argument:tt)*) => { quiet!($($argument)*) };
}
macro_rules! info {
    ($($argument:tt)*) => { quiet!($($argument)*) };
}

/// Kernel counters are left out; the source adds to them.
#[macro_export]
macro_rules! kcounter {
    ($name:ident, $text:expr) => {
        #[allow(non_upper_case_globals)]
        const $name: $crate::object::Uncounted = $crate::object::Uncounted;
    };
}

mod error;
pub mod ipc;
pub mod object;
pub mod shown;
pub mod signal;
pub mod task;
pub mod vm;

pub use self::error::*;
