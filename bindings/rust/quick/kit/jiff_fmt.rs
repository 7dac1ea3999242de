//! What the sources call of the kit's `jiff_fmt`.

pub mod temporal {
    use super::super::jiff::fmt::temporal::fraction;
    use std::time::Duration;

    pub struct SpanPrinter;

    impl SpanPrinter {
        pub fn new() -> SpanPrinter {
            SpanPrinter
        }

        /// The text of a time below a minute.
        pub fn unsigned_duration_text(&self, time: Duration) -> String {
            format!("PT{}{}S", time.as_secs(), fraction(time.subsec_nanos()))
        }
    }
}
