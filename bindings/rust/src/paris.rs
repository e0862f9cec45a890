//! The time of day in Paris: UTC+1, and UTC+2 from 01:00 UTC on the last Sunday of March until 01:00 UTC on the last
//! Sunday of October.

const DAY: i64 = 86_400;

/// The days from 1970-01-01 to the first of March of a year.
fn first_of_march(year: i64) -> i64 {
    let years = year - 1;
    year * 365 + years.div_euclid(4) - years.div_euclid(100) + years.div_euclid(400) - 719_528
        + 60
        + leap(year)
}

fn leap(year: i64) -> i64 {
    i64::from(year.rem_euclid(4) == 0 && (year.rem_euclid(100) != 0 || year.rem_euclid(400) == 0))
}

/// The last Sunday up to a day; 1970-01-01 was a Thursday.
fn sunday(day: i64) -> i64 {
    day - (day + 4).rem_euclid(7)
}

/// How many seconds Paris is ahead of UTC.
fn offset(time: i64) -> i64 {
    // The middle of a year tells which year it is: the rule is the same from January to March as from October on.
    let year = 1970 + (time - 30 * DAY).div_euclid(DAY) * 400 / 146_097;
    let march = first_of_march(year);
    let summer = sunday(march + 30) * DAY + 3_600..sunday(march + 30 + 214) * DAY + 3_600;
    if summer.contains(&time) {
        7_200
    } else {
        3_600
    }
}

/// Hours, minutes and seconds; a time before 1970 stays a number.
pub fn time_of_day(time: i64) -> String {
    if time < 0 {
        return time.to_string();
    }
    let second = (time + offset(time)).rem_euclid(DAY);
    format!("{:02}:{:02}:{:02}", second / 3_600, second / 60 % 60, second % 60)
}

#[cfg(test)]
mod tests {
    use super::*;

    #[test]
    fn the_hour_changes_on_the_last_sundays() {
        // 2026-03-29 and 2026-10-25, 01:00 UTC; 2000-03-26 and 2099-10-25.
        for (change, before, after) in [
            (1_774_746_000, "01:59:59", "03:00:00"),
            (1_792_890_000, "02:59:59", "02:00:00"),
            (954_032_400, "01:59:59", "03:00:00"),
            (4_096_573_200, "02:59:59", "02:00:00"),
        ] {
            assert_eq!(time_of_day(change - 1), before);
            assert_eq!(time_of_day(change), after);
        }
    }

    #[test]
    fn new_years_nights_are_in_winter() {
        for year in 1970..2100 {
            let january = first_of_march(year) - 59 - leap(year);
            assert_eq!(time_of_day(january * DAY + DAY - 3_600), "00:00:00", "{year}");
            assert_eq!(offset(january * DAY + 180 * DAY), 7_200, "{year}");
        }
    }

    #[test]
    fn before_1970() {
        assert_eq!(time_of_day(-1), "-1");
    }
}
