//! The calendar of the stand-in for `jiff`.
use erased::kit::jiff_core::civil::*;

// Each day stands after the one before it, by the lengths of the months.
#[test]
fn all_days_follow_each_other() {
    let is_leap = |year: i32| year % 4 == 0 && (year % 100 != 0 || year % 400 == 0);
    let mut number = -4_371_587;
    for year in -9999..=9999 {
        for month in 1..=12 {
            let days = match month {
                2 => 28 + u8::from(is_leap(year)),
                4 | 6 | 9 | 11 => 30,
                _ => 31,
            };
            for day in 1..=days {
                let date = Date {
                    year: year as i16,
                    month,
                    day,
                };
                assert_eq!(
                    (Date::from_unix_epoch_day(number), date.to_unix_epoch_day()),
                    (Ok(date), number as i32)
                );
                number += 1;
            }
        }
    }
    assert_eq!(number, 2_932_897);
    assert!(Date::from_unix_epoch_day(number).is_err() && Date::from_unix_epoch_day(-4_371_588).is_err());
    assert_eq!(
        Date::from_unix_epoch_day(0),
        Ok(Date {
            year: 1970,
            month: 1,
            day: 1
        })
    );
}

#[test]
fn a_time_is_of_its_day() {
    let last = DateTime::from_nanosecond(-1).unwrap();
    assert_eq!(
        last.date,
        Date {
            year: 1969,
            month: 12,
            day: 31
        }
    );
    assert_eq!(
        last.time,
        Time {
            hour: 23,
            minute: 59,
            second: 59,
            nanosecond: 999_999_999
        }
    );
    assert_eq!(last.to_nanosecond(), -1);
}
