//! Times as the library counts them: whole seconds since 1970-01-01T00:00:00 UTC.

use std::time::{Duration, SystemTime, UNIX_EPOCH};

/// Returns the time rounded down to a whole second.
///
/// The greatest or the least number stands for a time out of its range: the library rejects both.
pub(crate) fn seconds(time: SystemTime) -> i64 {
    match time.duration_since(UNIX_EPOCH) {
        Ok(after) => i64::try_from(after.as_secs()).unwrap_or(i64::MAX),
        Err(error) => {
            let before = error.duration();
            let whole = i64::try_from(before.as_secs()).unwrap_or(i64::MAX);
            (-whole).saturating_sub(i64::from(before.subsec_nanos() > 0))
        }
    }
}

/// Returns the time at a number of seconds.
///
/// On some platforms a `SystemTime` begins in 1601, and all of them reach the year 9999. What is
/// earlier becomes the epoch: it has expired too.
pub(crate) fn time_at(seconds: i64) -> SystemTime {
    let distance = Duration::from_secs(seconds.unsigned_abs());
    let time = if seconds < 0 {
        UNIX_EPOCH.checked_sub(distance)
    } else {
        UNIX_EPOCH.checked_add(distance)
    };
    time.unwrap_or(UNIX_EPOCH)
}

#[cfg(test)]
mod tests {
    use super::*;

    const HALF: Duration = Duration::from_millis(500);

    #[test]
    fn seconds_are_rounded_down() {
        let table = [
            ("the epoch", UNIX_EPOCH, 0),
            ("before a second is over", UNIX_EPOCH + HALF, 0),
            ("half a second before the epoch", UNIX_EPOCH - HALF, -1),
            ("a second before the epoch", UNIX_EPOCH - 2 * HALF, -1),
            (
                "2026",
                UNIX_EPOCH + Duration::from_secs(1_767_225_600),
                1_767_225_600,
            ),
        ];
        for (name, time, expected) in table {
            assert_eq!(seconds(time), expected, "{name}");
        }
    }

    #[test]
    fn the_years_of_the_library_are_represented() {
        for number in [-377_705_116_800, -1, 0, 1, 253_402_300_799] {
            assert_eq!(seconds(time_at(number)), number);
        }
    }
}
