//! Floats without NaN, ordered as `<` orders them: -0 and +0 are equal.

use std::cmp::Ordering;

#[derive(Clone, Copy, PartialEq, PartialOrd, Debug)]
pub struct NotNan(f64);

#[derive(Debug)]
pub struct FloatIsNan;

impl NotNan {
    pub fn new(value: f64) -> Result<NotNan, FloatIsNan> {
        if value.is_nan() {
            Err(FloatIsNan)
        } else {
            Ok(NotNan(value))
        }
    }
}

impl Eq for NotNan {}

#[allow(clippy::derive_ord_xor_partial_ord)]
impl Ord for NotNan {
    fn cmp(&self, other: &Self) -> Ordering {
        self.partial_cmp(other).expect("no NaN inside")
    }
}
