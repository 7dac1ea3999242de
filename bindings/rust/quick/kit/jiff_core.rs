//! Days and times of the calendar, of the years from -9999 to 9999.

pub mod civil {
    use super::super::jiff::{error::Bound, Error};

    const DAY: i128 = 86_400_000_000_000;

    #[derive(Debug, Clone, Copy, PartialEq, Eq, PartialOrd, Ord)]
    pub struct Date {
        pub year: i16,
        pub month: u8,
        pub day: u8,
    }

    #[derive(Debug, Clone, Copy, PartialEq, Eq, PartialOrd, Ord)]
    pub struct Time {
        pub hour: u8,
        pub minute: u8,
        pub second: u8,
        pub nanosecond: u32,
    }

    #[derive(Debug, Clone, Copy, PartialEq, Eq, PartialOrd, Ord)]
    pub struct DateTime {
        pub date: Date,
        pub time: Time,
    }

    impl Date {
        /// The day of this number, where 1970-01-01 has 0.
        pub fn from_unix_epoch_day(number: i64) -> Result<Date, Error> {
            if !(-4_371_587..=2_932_896).contains(&number) {
                return Err(Error::Range(Bound::Day));
            }
            // Years begin on the 1st of March, so that a leap day is a year's last; 400 of them have 146,097 days.
            let since = number + 719_468;
            let (era, day) = (since.div_euclid(146_097), since.rem_euclid(146_097));
            let year = (day - day / 1_460 + day / 36_524 - day / 146_096) / 365;
            let day = day - (365 * year + year / 4 - year / 100);
            let month = (5 * day + 2) / 153;
            let day = day - (153 * month + 2) / 5 + 1;
            let (month, after) = if month < 10 { (month + 3, 0) } else { (month - 9, 1) };
            Ok(Date { year: (era * 400 + year + after) as i16, month: month as u8, day: day as u8 })
        }

        pub fn to_unix_epoch_day(self) -> i32 {
            let (month, day) = (i32::from(self.month), i32::from(self.day));
            let year = i32::from(self.year) - i32::from(month <= 2);
            let (era, year) = (year.div_euclid(400), year.rem_euclid(400));
            let day = (153 * ((month + 9) % 12) + 2) / 5 + day - 1;
            era * 146_097 + 365 * year + year / 4 - year / 100 + day - 719_468
        }

        pub fn from_plain(date: Date) -> Date {
            date
        }

        pub fn to_plain(self) -> Date {
            self
        }

        pub fn to_datetime(self, time: Time) -> DateTime {
            DateTime { date: self, time }
        }
    }

    impl Time {
        /// The time so many nanoseconds after midnight, of which a day has more.
        pub fn from_nanosecond(since: u64) -> Time {
            let seconds = since / 1_000_000_000;
            Time {
                hour: (seconds / 3600) as u8,
                minute: (seconds / 60 % 60) as u8,
                second: (seconds % 60) as u8,
                nanosecond: (since % 1_000_000_000) as u32,
            }
        }

        pub fn to_nanosecond(self) -> u64 {
            let minutes = u64::from(self.hour) * 60 + u64::from(self.minute);
            (minutes * 60 + u64::from(self.second)) * 1_000_000_000 + u64::from(self.nanosecond)
        }

        pub fn midnight() -> Time {
            Time::from_nanosecond(0)
        }

        pub fn from_plain(time: Time) -> Time {
            time
        }

        pub fn to_plain(self) -> Time {
            self
        }
    }

    impl DateTime {
        /// The day and the time so many nanoseconds after the beginning of 1970.
        pub fn from_nanosecond(since: i128) -> Result<DateTime, Error> {
            let number = i64::try_from(since.div_euclid(DAY)).map_err(|_| Error::Range(Bound::Day))?;
            let time = Time::from_nanosecond(since.rem_euclid(DAY) as u64);
            Ok(DateTime { date: Date::from_unix_epoch_day(number)?, time })
        }

        pub fn to_nanosecond(self) -> i128 {
            i128::from(self.date.to_unix_epoch_day()) * DAY + i128::from(self.time.to_nanosecond())
        }

        pub fn from_plain(shown: DateTime) -> DateTime {
            shown
        }

        pub fn to_plain(self) -> DateTime {
            self
        }
    }
}
