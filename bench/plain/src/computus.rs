//! The figures of a year, and Easter by both rules.

use crate::calendar::{day_of, is_leap, Calendar, Date};

#[derive(Clone, Copy, PartialEq, Eq)]
pub enum Rule {
    Julian,
    Gregorian,
}

pub fn golden_number(year: i64) -> i64 {
    year % 19 + 1
}

pub fn indiction(year: i64) -> i64 {
    (year + 2) % 15 + 1
}

pub fn julian_epact(year: i64) -> i64 {
    11 * (year % 19) % 30
}

/// The corrections of sun and moon up to a year.
fn corrections(year: i64) -> i64 {
    let century = year / 100 + 1;
    (8 * century + 5) / 25 - 3 * century / 4
}

/// The epact as the canons write it: a star for 0, and 25 with a prime in a late year of the cycle.
pub fn gregorian_epact(year: i64) -> String {
    match (8 + 11 * (year % 19) + corrections(year)).rem_euclid(30) {
        0 => "*".to_string(),
        25 if year % 19 > 10 => "25'".to_string(),
        epact => epact.to_string(),
    }
}

fn day(calendar: Calendar, year: i64, month: i64, day: i64) -> i64 {
    day_of(calendar, Date::new(year, month, day)).expect("a day from March to April")
}

/// The days from the full moon of Easter to 21 March or 19 April.
fn full_moon(rule: Rule, year: i64) -> i64 {
    let cycle = year % 19;
    match rule {
        Rule::Julian => day(Calendar::Julian, year, 3, 21) + (19 * cycle + 15) % 30,
        Rule::Gregorian => {
            let shift = (14 + 11 * cycle + corrections(year)).rem_euclid(30);
            let is_raised = shift == 0 || shift == 1 && cycle > 10;
            day(Calendar::Gregorian, year, 4, 19) - shift - i64::from(is_raised)
        }
    }
}

/// The first Sunday after the full moon.
pub fn easter(rule: Rule, year: i64) -> i64 {
    let moon = full_moon(rule, year);
    moon + 7 - moon % 7
}

/// One letter in a common year and two in a leap year, that of January first.
pub fn sunday_letters(calendar: Calendar, year: i64) -> String {
    let march = day(calendar, year, 3, 1);
    let letter = |day: i64| char::from(b'A' + (day.rem_euclid(7)) as u8);
    // 1 March has the letter D.
    let late = letter(3 - march);
    if is_leap(calendar, year) {
        [letter(4 - march), late].iter().collect()
    } else {
        late.to_string()
    }
}
