//! Days and dates. Day 1 is 1 January of year 1 in the Gregorian calendar.

pub const LAST_DAY: i64 = 3_652_059;
pub const LAST_YEAR: i64 = 9_999;
pub const LAST_LABEL_YEAR: i64 = 10_000;

/// The day before 1 March of year 0, in each calendar.
const GREGORIAN_MARCH: i64 = -305;
const JULIAN_MARCH: i64 = -307;

/// The Swedish calendar is a day ahead of the Julian one from the first of these days, and
/// agrees with it again from the day after the second, 30 February 1712.
const SWEDISH_START: i64 = 620_617;
const FEBRUARY_30: i64 = 625_000;

#[derive(Clone, Copy, PartialEq, Eq)]
pub enum Calendar {
    Julian,
    Gregorian,
    Swedish,
}

#[derive(Clone, Copy, PartialEq, Eq)]
pub struct Date {
    pub year: i64,
    pub month: i64,
    pub day: i64,
}

impl Date {
    pub const fn new(year: i64, month: i64, day: i64) -> Date {
        Date { year, month, day }
    }
}

const SWEDISH_FEBRUARY_30: Date = Date::new(1712, 2, 30);
const SWEDISH_LEFT_OUT: Date = Date::new(1700, 2, 29);

pub fn is_leap(calendar: Calendar, year: i64) -> bool {
    match calendar {
        Calendar::Gregorian => year % 4 == 0 && (year % 100 != 0 || year % 400 == 0),
        _ => year % 4 == 0,
    }
}

fn days_in_month(calendar: Calendar, year: i64, month: i64) -> i64 {
    match month {
        2 if is_leap(calendar, year) => 29,
        2 => 28,
        4 | 6 | 9 | 11 => 30,
        _ => 31,
    }
}

/// The date of a year that begins on 1 March, with the days before it in that year.
fn date_in_year(march_year: i64, day_of_year: i64) -> Date {
    let months = (5 * day_of_year + 2) / 153;
    let day = day_of_year - (153 * months + 2) / 5 + 1;
    if months < 10 {
        Date::new(march_year, months + 3, day)
    } else {
        Date::new(march_year + 1, months - 9, day)
    }
}

fn gregorian_date(day: i64) -> Date {
    let days = day - GREGORIAN_MARCH;
    let (cycles, rest) = (days.div_euclid(146_097), days.rem_euclid(146_097));
    let year = (rest - rest / 1_460 + rest / 36_524 - rest / 146_096) / 365;
    let day_of_year = rest - (365 * year + year / 4 - year / 100);
    date_in_year(400 * cycles + year, day_of_year)
}

fn julian_date(day: i64) -> Date {
    let days = day - JULIAN_MARCH;
    let (cycles, rest) = (days.div_euclid(1_461), days.rem_euclid(1_461));
    let year = (rest - rest / 1_460) / 365;
    date_in_year(4 * cycles + year, rest - 365 * year)
}

pub fn date_of(calendar: Calendar, day: i64) -> Date {
    match calendar {
        Calendar::Gregorian => gregorian_date(day),
        Calendar::Swedish if day == FEBRUARY_30 => SWEDISH_FEBRUARY_30,
        Calendar::Swedish if (SWEDISH_START..FEBRUARY_30).contains(&day) => julian_date(day + 1),
        _ => julian_date(day),
    }
}

/// The year that begins on 1 March, and the days before the date in it.
fn march_year(date: Date) -> (i64, i64) {
    let (year, months) = if date.month > 2 {
        (date.year, date.month - 3)
    } else {
        (date.year - 1, date.month + 9)
    };
    (year, (153 * months + 2) / 5 + date.day - 1)
}

fn gregorian_day(date: Date) -> i64 {
    let (year, day_of_year) = march_year(date);
    let leap_days = year.div_euclid(4) - year.div_euclid(100) + year.div_euclid(400);
    GREGORIAN_MARCH + 365 * year + leap_days + day_of_year
}

fn julian_day(date: Date) -> i64 {
    let (year, day_of_year) = march_year(date);
    JULIAN_MARCH + 365 * year + year.div_euclid(4) + day_of_year
}

fn swedish_day(date: Date) -> i64 {
    let day = julian_day(date);
    if (SWEDISH_START + 1..=FEBRUARY_30).contains(&day) {
        day - 1
    } else {
        day
    }
}

/// The day of the line that has the date.
pub fn day_of(calendar: Calendar, date: Date) -> Option<i64> {
    if calendar == Calendar::Swedish {
        if date == SWEDISH_FEBRUARY_30 {
            return Some(FEBRUARY_30);
        }
        if date == SWEDISH_LEFT_OUT {
            return None;
        }
    }
    let is_date = (1..=12).contains(&date.month)
        && (1..=days_in_month(calendar, date.year, date.month)).contains(&date.day);
    if !is_date {
        return None;
    }
    let day = match calendar {
        Calendar::Julian => julian_day(date),
        Calendar::Gregorian => gregorian_day(date),
        Calendar::Swedish => swedish_day(date),
    };
    (1..=LAST_DAY).contains(&day).then_some(day)
}
