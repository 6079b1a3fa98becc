//! Stand-in for the crate `unicode_width`: only the call that cost.rs names. Nothing that the harness compares goes through it
//! (every text carries its display width), so one column for each character will do.

pub trait UnicodeWidthStr {
    fn width(&self) -> usize;
}

impl UnicodeWidthStr for str {
    fn width(&self) -> usize {
        self.chars().count()
    }
}
