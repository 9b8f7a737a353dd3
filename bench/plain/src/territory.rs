//! A territory: the regimes by which it dated its documents, and the Easters that are listed.

use crate::calendar::{date_of, day_of, Calendar, Date, LAST_DAY};
use crate::computus::{easter, Rule};
use std::collections::HashMap;

const MONTHS: [&str; 12] = [
    "January",
    "February",
    "March",
    "April",
    "May",
    "June",
    "July",
    "August",
    "September",
    "October",
    "November",
    "December",
];

/// Where the year begins: 1 January, 25 March, 25 December before, 1 September before, 25 March
/// before, or the Julian Easter.
#[derive(Clone, Copy, PartialEq, Eq)]
pub enum Style {
    January,
    Annunciation,
    Nativity,
    September,
    Pisan,
    Easter,
}

#[derive(Clone, Copy, PartialEq, Eq)]
pub struct Regime {
    pub calendar: Calendar,
    pub style: Style,
    pub rule: Rule,
}

/// Returns whether a Julian date is one of the line, and before the Easter of its year, which is
/// from 22 March to 25 April.
fn is_before_easter(date: Date) -> bool {
    let place = (date.month, date.day);
    let is_before = |day| day < easter(Rule::Julian, date.year);
    place < (3, 22) || place < (4, 25) && day_of(Calendar::Julian, date).is_some_and(is_before)
}

/// The days that have a label under a regime: the first one, and the other one.
type Days = [Option<i64>; 2];

const NO_DAYS: Days = [None, None];

impl Regime {
    /// Returns whether the style is allowed: that of Easter requires the Julian calendar and rule.
    pub fn has_lawful_style(self) -> bool {
        self.style != Style::Easter
            || self.calendar == Calendar::Julian && self.rule == Rule::Julian
    }

    /// The year as a style counts it whose years begin on the same date each time.
    fn year_by_date(self, date: Date) -> i64 {
        let place = (date.month, date.day);
        match self.style {
            Style::Annunciation if place < (3, 25) => date.year - 1,
            Style::Nativity if place >= (12, 25) => date.year + 1,
            Style::September if place >= (9, 1) => date.year + 1,
            Style::Pisan if place >= (3, 25) => date.year + 1,
            _ => date.year,
        }
    }

    fn year_of(self, date: Date) -> i64 {
        match self.style {
            Style::Easter => date.year - i64::from(is_before_easter(date)),
            _ => self.year_by_date(date),
        }
    }

    pub fn label_of(self, day: i64) -> Date {
        let date = date_of(self.calendar, day);
        Date {
            year: self.year_of(date),
            ..date
        }
    }

    /// The days that have the label: their years counted from 1 January are at most one away. Two
    /// days have it under the style of Easter alone.
    fn days_of_label(self, label: Date) -> Days {
        let mut dates = (label.year - 1..=label.year + 1).map(|year| Date { year, ..label });
        if self.style == Style::Easter {
            let mut days = dates
                .filter(|&date| self.year_of(date) == label.year)
                .filter_map(|date| day_of(self.calendar, date));
            return [days.next(), days.next()];
        }
        let date = dates.find(|&date| self.year_by_date(date) == label.year);
        [date.and_then(|date| day_of(self.calendar, date)), None]
    }

    /// The day as it is cited: `11 February 1731/2`.
    pub fn dual_text(self, day: i64) -> String {
        let date = date_of(self.calendar, day);
        let year = self.year_of(date);
        let mut text = format!("{} {} {year}", date.day, MONTHS[date.month as usize - 1]);
        if year < date.year {
            let (old, new) = (year.to_string(), date.year.to_string());
            let pairs = old.bytes().zip(new.bytes());
            let is_longer = new.len() > old.len();
            let same = if is_longer {
                0
            } else {
                pairs.take_while(|(a, b)| a == b).count()
            };
            text.push('/');
            text.push_str(&new[same..]);
        }
        text
    }
}

/// Returns whether a change skips a label that has these days: an old one is late or there is none,
/// a new one is early or there is none, and there is one of the two.
fn is_passed_over(old: Days, new: Days, change: i64) -> bool {
    let [first_new, _] = new;
    let last_old = old[1].or(old[0]);
    let is_late = last_old.map_or(true, |day| day >= change);
    let is_early = first_new.map_or(true, |day| day < change);
    is_late && is_early && (last_old, first_new) != (None, None)
}

#[derive(Clone, Copy)]
pub struct Period {
    pub first: i64,
    pub last: i64,
    pub regime: Regime,
}

impl Period {
    fn has(self, day: i64) -> bool {
        (self.first..=self.last).contains(&day)
    }
}

pub struct Territory {
    /// The first days of the periods, ascending from day 1, with their regimes.
    starts: Vec<(i64, Regime)>,
    /// The listed Easters by their years.
    pub exceptions: HashMap<i64, i64>,
}

impl Territory {
    pub fn new(opening: Regime) -> Territory {
        Territory {
            starts: vec![(1, opening)],
            exceptions: HashMap::new(),
        }
    }

    pub fn changes(&self) -> usize {
        self.starts.len() - 1
    }

    fn place(&self, day: i64) -> Result<usize, usize> {
        self.starts.binary_search_by_key(&day, |start| start.0)
    }

    pub fn has_start(&self, day: i64) -> bool {
        self.place(day).is_ok()
    }

    /// Starts a period with the regime on the day, or gives the period that starts there another.
    pub fn set(&mut self, day: i64, regime: Regime) {
        match self.place(day) {
            Ok(place) => self.starts[place].1 = regime,
            Err(place) => self.starts.insert(place, (day, regime)),
        }
    }

    pub fn remove(&mut self, day: i64) {
        if let Ok(place) = self.place(day) {
            self.starts.remove(place);
        }
    }

    fn period(&self, place: usize) -> Period {
        let (first, regime) = self.starts[place];
        let last = self
            .starts
            .get(place + 1)
            .map_or(LAST_DAY, |next| next.0 - 1);
        Period {
            first,
            last,
            regime,
        }
    }

    pub fn periods(&self) -> impl Iterator<Item = Period> + '_ {
        (0..self.starts.len()).map(|place| self.period(place))
    }

    pub fn period_at(&self, day: i64) -> Period {
        self.period(self.place(day).unwrap_or_else(|after| after - 1))
    }

    /// The days that have the label, and the days of the changes at which it was skipped.
    pub fn read(&self, label: Date) -> (Vec<i64>, Vec<i64>) {
        let (mut found, mut skipped) = (Vec::new(), Vec::new());
        let (mut old, mut was_read) = (NO_DAYS, false);
        for (place, period) in self.periods().enumerate() {
            let days = period.regime.days_of_label(label);
            let count = found.len();
            found.extend(days.into_iter().flatten().filter(|&day| period.has(day)));
            let is_read = found.len() > count;
            let is_missing = place > 0 && !is_read && !was_read;
            if is_missing && is_passed_over(old, days, period.first) {
                skipped.push(period.first);
            }
            (old, was_read) = (days, is_read);
        }
        (found, skipped)
    }

    /// The listed Easter of the year, otherwise each Easter by the rule in force on that very day.
    pub fn easters(&self, year: i64) -> (Vec<i64>, bool) {
        if let Some(&day) = self.exceptions.get(&year) {
            return (vec![day], true);
        }
        let mut days: Vec<i64> = [Rule::Julian, Rule::Gregorian]
            .into_iter()
            .map(|rule| (rule, easter(rule, year)))
            .filter(|&(rule, day)| self.period_at(day).regime.rule == rule)
            .map(|(_, day)| day)
            .collect();
        days.sort_unstable();
        (days, false)
    }
}
