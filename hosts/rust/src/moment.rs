//! DateTimes.
use std::fmt;
use std::hash::{Hash, Hasher};
use std::time::{Duration, SystemTime, UNIX_EPOCH};

/// A DateTime: its instant, and what it prints as. One that you make is in UTC.
///
/// DateTimes are equal if their instants are. A DateTime prints as the language prints it.
///
/// ```
/// use exprlang::{eval, Context, DateTimeValue};
/// let moment = DateTimeValue::from_timestamp(1_709_373_600, 250_000_000);
/// assert_eq!(moment.to_string(), "2024-03-02T10:00:00.250+00:00");
/// let context = Context::from_iter([("moment", moment)]);
/// assert_eq!(eval("moment", &context).unwrap().to_string(), "2024-03-02T10:00:00.250+00:00");
/// ```
#[derive(Clone, Debug)]
pub struct DateTimeValue {
    second: i64,
    nanosecond: u32,
    /// What the engine printed of it, which has its offset.
    shown: Option<String>,
}

impl DateTimeValue {
    /// The DateTime of a second since 1970 began, and the nanoseconds past that, in UTC.
    ///
    /// The nanoseconds are below 1,000,000,000. The language has no DateTime past 9999-12-30T22:00:00Z. A run ends with
    /// [`Error::MisuseError`](crate::Error::MisuseError) if it reads one that the language doesn't have.
    #[must_use]
    pub fn from_timestamp(second: i64, nanosecond: u32) -> DateTimeValue {
        DateTimeValue { second, nanosecond, shown: None }
    }

    pub(crate) fn told(second: i64, nanosecond: u32, shown: String) -> DateTimeValue {
        DateTimeValue { second, nanosecond, shown: Some(shown) }
    }

    /// The second since 1970 began.
    #[must_use]
    pub fn second(&self) -> i64 {
        self.second
    }

    /// The nanoseconds past that second.
    #[must_use]
    pub fn nanosecond(&self) -> u32 {
        self.nanosecond
    }

    /// The instant as the standard library has it, or None if the system's clock can't hold it.
    #[must_use]
    pub fn to_system_time(&self) -> Option<SystemTime> {
        let seconds = Duration::from_secs(self.second.unsigned_abs());
        let whole = if self.second < 0 { UNIX_EPOCH.checked_sub(seconds) } else { UNIX_EPOCH.checked_add(seconds) };
        whole?.checked_add(Duration::from_nanos(self.nanosecond.into()))
    }
}

/// The instant of the system's clock, in UTC.
impl From<SystemTime> for DateTimeValue {
    fn from(time: SystemTime) -> DateTimeValue {
        let whole = |seconds: u64| i64::try_from(seconds).unwrap_or(i64::MAX);
        match time.duration_since(UNIX_EPOCH) {
            Ok(since) => DateTimeValue::from_timestamp(whole(since.as_secs()), since.subsec_nanos()),
            Err(before) => {
                let before = before.duration();
                let second = -whole(before.as_secs());
                match before.subsec_nanos() {
                    0 => DateTimeValue::from_timestamp(second, 0),
                    past => DateTimeValue::from_timestamp(second.saturating_sub(1), 1_000_000_000 - past),
                }
            }
        }
    }
}

impl PartialEq for DateTimeValue {
    fn eq(&self, other: &DateTimeValue) -> bool {
        (self.second, self.nanosecond) == (other.second, other.nanosecond)
    }
}

impl Eq for DateTimeValue {}

impl Hash for DateTimeValue {
    fn hash<H: Hasher>(&self, state: &mut H) {
        (self.second, self.nanosecond).hash(state);
    }
}

impl fmt::Display for DateTimeValue {
    fn fmt(&self, f: &mut fmt::Formatter<'_>) -> fmt::Result {
        if let Some(shown) = &self.shown {
            return f.write_str(shown);
        }
        let (year, month, day) = date_of(self.second.div_euclid(86_400));
        let past = self.second.rem_euclid(86_400);
        let (hour, minute, second) = (past / 3_600, past / 60 % 60, past % 60);
        let sign = match year {
            0..=9_999 => "",
            10_000.. => "+",
            _ => "-",
        };
        let year = year.unsigned_abs();
        write!(f, "{sign}{year:04}-{month:02}-{day:02}T{hour:02}:{minute:02}:{second:02}")?;
        match self.nanosecond {
            0 => {}
            n if n % 1_000_000 == 0 => write!(f, ".{:03}", n / 1_000_000)?,
            n if n % 1_000 == 0 => write!(f, ".{:06}", n / 1_000)?,
            n => write!(f, ".{n:09}")?,
        }
        f.write_str("+00:00")
    }
}

/// The year, month and day of a day since 1970 began. Years begin in March here, so that a leap day ends one.
fn date_of(day: i64) -> (i64, i64, i64) {
    const DAYS_TO_1970: i64 = 719_468; // since March 1 of the year 0
    let (era, of_era) = ((day + DAYS_TO_1970).div_euclid(146_097), (day + DAYS_TO_1970).rem_euclid(146_097));
    let year_of_era = (of_era - of_era / 1_460 + of_era / 36_524 - of_era / 146_096) / 365;
    let of_year = of_era - (365 * year_of_era + year_of_era / 4 - year_of_era / 100);
    let from_march = (5 * of_year + 2) / 153;
    let month = if from_march < 10 { from_march + 3 } else { from_march - 9 };
    let year = era * 400 + year_of_era + i64::from(month <= 2);
    (year, month, of_year - (153 * from_march + 2) / 5 + 1)
}
