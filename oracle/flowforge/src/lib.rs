//! The originals, compiled as they stand (see build.rs), and `harness`, by which the driver reaches them.
#![allow(unused, private_interfaces)]

extern crate std_lent as std;

/// The trainer tells its progress on standard output, which belongs to the driver.
macro_rules! println {
    ($($arg:tt)*) => {
        if false {
            ::std::print!("{}", ::std::format_args!($($arg)*))
        }
    };
}

/// A new tree's root stands in a list of one node: there it gets the upper ends that the driver has given.
macro_rules! vec {
    ($($arg:tt)*) => {
        $crate::harness::rooted(::std::vec![$($arg)*])
    };
}

include!(concat!(env!("OUT_DIR"), "/originals.rs"));
pub use originals::*;

pub mod harness;
