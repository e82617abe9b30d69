//! The field `Date` (RFC 9110, section 5.6.7).

use std::sync::{Mutex, PoisonError};
use std::time::{SystemTime, UNIX_EPOCH};

const DAYS: [&str; 7] = ["Thu", "Fri", "Sat", "Sun", "Mon", "Tue", "Wed"];
const MONTHS: [&str; 12] = ["Jan", "Feb", "Mar", "Apr", "May", "Jun", "Jul", "Aug", "Sep", "Oct", "Nov", "Dec"];

fn seconds() -> u64 {
    SystemTime::now().duration_since(UNIX_EPOCH).map_or(0, |since| since.as_secs())
}

/// The text of the second that is now, made once.
#[derive(Default)]
pub struct Clock(Mutex<(u64, String)>);

impl Clock {
    /// The date and time now, as the field has it.
    pub fn text(&self) -> String {
        let mut last = self.0.lock().unwrap_or_else(PoisonError::into_inner);
        let now = seconds();
        if last.0 != now {
            *last = (now, text_of(now));
        }
        last.1.clone()
    }
}

/// This many seconds after the begin of 1970.
fn text_of(seconds: u64) -> String {
    let (days, second) = (seconds / 86_400, seconds % 86_400);
    let (year, month, day) = civil(days);
    let weekday = DAYS[(days % 7) as usize];
    let (hour, minute, second) = (second / 3600, second / 60 % 60, second % 60);
    format!("{weekday}, {day:02} {} {year} {hour:02}:{minute:02}:{second:02} GMT", MONTHS[month as usize])
}

/// The year, the month from 0 and the day of this many days after the begin of 1970, by years that begin in March.
fn civil(days: u64) -> (u64, u64, u64) {
    let days = days + 719_468;
    let (era, of_era) = (days / 146_097, days % 146_097);
    let year = (of_era - of_era / 1460 + of_era / 36_524 - of_era / 146_096) / 365;
    let of_year = of_era - (365 * year + year / 4 - year / 100);
    let month = (5 * of_year + 2) / 153;
    let day = of_year - (153 * month + 2) / 5 + 1;
    let from_january = (month + 2) % 12;
    (year + era * 400 + u64::from(from_january < 2), from_january, day)
}

#[cfg(test)]
mod tests {
    use super::text_of;

    #[test]
    fn the_example_of_the_standard() {
        assert_eq!(text_of(784_111_777), "Sun, 06 Nov 1994 08:49:37 GMT");
        assert_eq!(text_of(0), "Thu, 01 Jan 1970 00:00:00 GMT");
        assert_eq!(text_of(951_782_400), "Tue, 29 Feb 2000 00:00:00 GMT");
        assert_eq!(text_of(1_735_689_599), "Tue, 31 Dec 2024 23:59:59 GMT");
    }
}
