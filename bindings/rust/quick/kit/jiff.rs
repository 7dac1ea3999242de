//! What the sources call of `jiff`.

pub mod error {
    #[derive(Debug, Clone, Copy, PartialEq, Eq)]
    pub enum Bound {
        Day,
        Hour,
        Instant,
    }
}

pub use super::jiff_core::civil;

#[derive(Debug, Clone, Copy, PartialEq, Eq)]
pub enum Error {
    Range(error::Bound),
    Text,
}

/// An instant, by its nanoseconds since 1970.
#[derive(Debug, Clone, Copy, PartialEq, Eq, PartialOrd, Ord)]
pub struct Timestamp(i128);

impl Timestamp {
    /// An instant whose day is of the calendar in each time zone, of which the farthest are 25:59:59 off.
    pub fn from_nanosecond(since: i128) -> Result<Timestamp, Error> {
        if (-377_705_023_201_000_000_000..=253_402_207_200_999_999_999).contains(&since) {
            Ok(Timestamp(since))
        } else {
            Err(Error::Range(error::Bound::Instant))
        }
    }

    pub fn as_nanosecond(self) -> i128 {
        self.0
    }

    pub fn as_microsecond(self) -> i64 {
        (self.0 / 1_000) as i64
    }
}

pub mod tz {
    use super::{civil::DateTime, Error, Timestamp};

    pub struct Offset;

    impl Offset {
        pub const UTC: Offset = Offset;

        pub fn to_timestamp(self, shown: DateTime) -> Result<Timestamp, Error> {
            Timestamp::from_nanosecond(shown.to_nanosecond())
        }
    }
}

mod text {
    use super::civil::{Date, DateTime, Time};
    use super::{error::Bound, Error, Timestamp};
    use std::str::FromStr;

    /// A text that is read from the left.
    struct Reader<'a>(&'a [u8]);

    impl Reader<'_> {
        fn next_of(&mut self, wanted: &[u8]) -> Option<u8> {
            let byte = *self.0.first().filter(|byte| wanted.contains(byte))?;
            self.0 = &self.0[1..];
            Some(byte)
        }

        /// A number of so many digits, up to a greatest.
        fn number(&mut self, count: usize, greatest: u32) -> Result<u32, Error> {
            let digits = self.0.get(..count).filter(|digits| digits.iter().all(u8::is_ascii_digit)).ok_or(Error::Text)?;
            let number = digits.iter().fold(0, |number, digit| number * 10 + u32::from(digit - b'0'));
            self.0 = &self.0[count..];
            if number <= greatest { Ok(number) } else { Err(Error::Range(Bound::Day)) }
        }

        /// Nanoseconds after a point or a comma, of which up to nine digits stand there.
        fn fraction(&mut self) -> Result<u32, Error> {
            if self.next_of(b".,").is_none() {
                return Ok(0);
            }
            let count = self.0.iter().take_while(|byte| byte.is_ascii_digit()).count();
            if count == 0 || count > 9 {
                return Err(Error::Text);
            }
            Ok(self.number(count, u32::MAX)? * 10u32.pow(9 - count as u32))
        }

        fn date(&mut self) -> Result<Date, Error> {
            let year = match self.next_of(b"+-") {
                Some(sign) => {
                    let year = self.number(6, 9999)? as i16;
                    if sign == b'-' && year == 0 {
                        return Err(Error::Text);
                    }
                    if sign == b'-' { -year } else { year }
                }
                None => self.number(4, 9999)? as i16,
            };
            let is_extended = self.next_of(b"-").is_some();
            let month = self.number(2, 12)? as u8;
            if is_extended != self.next_of(b"-").is_some() {
                return Err(Error::Text);
            }
            let date = Date { year, month, day: self.number(2, 31)? as u8 };
            // A day that there isn't is another one by its number.
            if month == 0 || Date::from_unix_epoch_day(i64::from(date.to_unix_epoch_day())) != Ok(date) {
                return Err(Error::Range(Bound::Day));
            }
            Ok(date)
        }

        fn time(&mut self) -> Result<Time, Error> {
            let (mut time, hour) = (Time::midnight(), self.number(2, 23)?);
            time.hour = hour as u8;
            let is_extended = self.next_of(b":").is_some();
            if !is_extended && !self.0.first().map_or(false, u8::is_ascii_digit) {
                return Ok(time);
            }
            time.minute = self.number(2, 59)? as u8;
            let has_second = if is_extended { self.next_of(b":").is_some() } else { self.0.first().map_or(false, u8::is_ascii_digit) };
            if has_second {
                // A leap second is the one before it.
                time.second = self.number(2, 60)?.min(59) as u8;
                time.nanosecond = self.fraction()?;
            }
            Ok(time)
        }

        /// Nanoseconds east of Greenwich.
        fn offset(&mut self) -> Result<Option<i128>, Error> {
            if self.next_of(b"Zz").is_some() {
                return Ok(Some(0));
            }
            let sign = match self.next_of(b"+-") {
                Some(sign) => sign,
                None => return Ok(None),
            };
            let mut seconds = self.number(2, 25)? * 3600;
            let is_extended = self.next_of(b":").is_some();
            let more = |reader: &Self| reader.0.first().map_or(false, u8::is_ascii_digit);
            if is_extended || more(self) {
                seconds += self.number(2, 59)? * 60;
                if if is_extended { self.next_of(b":").is_some() } else { more(self) } {
                    seconds += self.number(2, 59)?;
                    let fraction = self.fraction()?;
                    seconds += u32::from(fraction >= 500_000_000);
                }
            }
            let offset = i128::from(seconds) * 1_000_000_000;
            Ok(Some(if sign == b'-' { -offset } else { offset }))
        }

        fn datetime(&mut self) -> Result<(DateTime, bool), Error> {
            let date = self.date()?;
            match self.next_of(b"Tt ") {
                Some(_) => Ok((date.to_datetime(self.time()?), true)),
                None => Ok((date.to_datetime(Time::midnight()), false)),
            }
        }

        /// Annotations in brackets, of which nothing is read: a zone, then keys with values.
        fn end(&mut self) -> Result<(), Error> {
            let mut is_first = true;
            while self.next_of(b"[").is_some() {
                let is_critical = self.next_of(b"!").is_some();
                let end = self.0.iter().position(|byte| *byte == b']').ok_or(Error::Text)?;
                let (word, rest) = (&self.0[..end], &self.0[end + 1..]);
                let is_value = |value: &[u8]| value.split(|byte| *byte == b'-').all(|part| !part.is_empty() && part.iter().all(u8::is_ascii_alphanumeric));
                let is_key = |key: &[u8]| {
                    let (front, back) = (key.first(), key.iter().skip(1));
                    front.map_or(false, |byte| matches!(byte, b'a'..=b'z' | b'_')) && back.copied().all(|byte| matches!(byte, b'a'..=b'z' | b'0'..=b'9' | b'-' | b'_'))
                };
                let is_name = |part: &[u8]| {
                    let (front, back) = (part.first(), part.iter().skip(1));
                    front.map_or(false, |byte| byte.is_ascii_alphabetic() || matches!(byte, b'.' | b'_'))
                        && back.copied().all(|byte| byte.is_ascii_alphanumeric() || matches!(byte, b'.' | b'_' | b'-' | b'+'))
                };
                let is_offset = || matches!(Reader(word).offset_alone(), Ok(true));
                let is_known = match word.iter().position(|byte| *byte == b'=') {
                    Some(at) => !is_critical && is_key(&word[..at]) && is_value(&word[at + 1..]),
                    None => is_first && (word.split(|byte| *byte == b'/').all(is_name) || is_offset()),
                };
                if !is_known {
                    return Err(Error::Text);
                }
                (self.0, is_first) = (rest, false);
            }
            if self.0.is_empty() { Ok(()) } else { Err(Error::Text) }
        }

        /// Whether all of it is a sign, hours and minutes.
        fn offset_alone(&mut self) -> Result<bool, Error> {
            Ok(self.0.len() <= 6 && matches!(self.0.first(), Some(b'+' | b'-')) && self.offset()?.is_some() && self.0.is_empty())
        }
    }

    /// A day and a time as a clock shows them; an offset may follow, but no `Z`.
    fn shown(text: &str) -> Result<DateTime, Error> {
        let mut reader = Reader(text.as_bytes());
        let (shown, has_time) = reader.datetime()?;
        if has_time && !matches!(reader.0.first(), Some(b'Z' | b'z')) {
            reader.offset()?;
        }
        reader.end()?;
        Ok(shown)
    }

    impl FromStr for DateTime {
        type Err = Error;

        fn from_str(text: &str) -> Result<DateTime, Error> {
            shown(text)
        }
    }

    impl FromStr for Date {
        type Err = Error;

        fn from_str(text: &str) -> Result<Date, Error> {
            Ok(shown(text)?.date)
        }
    }

    impl FromStr for Time {
        type Err = Error;

        fn from_str(text: &str) -> Result<Time, Error> {
            match shown(text) {
                Ok(shown) => Ok(shown.time),
                Err(_) => {
                    let mut reader = Reader(text.as_bytes());
                    reader.next_of(b"Tt");
                    let time = reader.time()?;
                    reader.end()?;
                    Ok(time)
                }
            }
        }
    }

    impl FromStr for Timestamp {
        type Err = Error;

        fn from_str(text: &str) -> Result<Timestamp, Error> {
            let mut reader = Reader(text.as_bytes());
            let (shown, has_time) = reader.datetime()?;
            let offset = if has_time { reader.offset()? } else { None };
            reader.end()?;
            Timestamp::from_nanosecond(shown.to_nanosecond() - offset.ok_or(Error::Text)?)
        }
    }
}

pub mod fmt {
    pub mod temporal {
        use arrayvec::ArrayString;
        use super::super::civil::Time;

        pub struct DateTimePrinter;

        impl DateTimePrinter {
            pub fn new() -> DateTimePrinter {
                DateTimePrinter
            }

            pub fn time_text(&self, t: Time) -> ArrayString<18> {
                let mut text = ArrayString::new();
                for (between, number) in [("", t.hour), (":", t.minute), (":", t.second)] {
                    text.push_str(between);
                    text.push(digit(number as u32 / 10));
                    text.push(digit(number as u32 % 10));
                }
                text.push_str(&fraction(t.nanosecond));
                text
            }
        }

        fn digit(number: u32) -> char {
            char::from(b'0' + number as u8)
        }

        /// A point and the digits of so many nanoseconds, with no 0 at their end.
        pub fn fraction(nanosecond: u32) -> ArrayString<10> {
            let mut text = ArrayString::new();
            let (mut left, mut unit) = (nanosecond, 100_000_000);
            if left > 0 {
                text.push('.');
            }
            while left > 0 {
                text.push(digit(left / unit));
                (left, unit) = (left % unit, unit / 10);
            }
            text
        }
    }
}
