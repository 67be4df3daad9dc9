#[macro_use]
pub mod logging;
pub mod average;
pub mod meters;
pub mod rand;

pub trait OfLifetime {
    type Of<'a>;
}
