//! The standard library, except that `std::fmt::Debug` names our derive beside the trait.

pub use ::std::*;

pub mod fmt {
    pub use ::std::fmt::*;
    pub use derives::Debug;
}
