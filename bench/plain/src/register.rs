//! The register: edits are staged on a draft, and published together.

use crate::calendar::{LAST_DAY, LAST_YEAR};
use crate::territory::{Regime, Territory};
use std::collections::HashMap;

const LANDS: usize = 500;
const CHANGES: usize = 40;
const EXCEPTIONS: usize = 200;
const EDITS: usize = 20_000;
const EDITIONS: usize = 5_000;

/// Why something is refused, with its number.
#[derive(Clone, Copy, Debug)]
pub enum Refusal {
    BadCode = 1,
    BadName,
    UnknownLand,
    LandExists,
    DayOffLine,
    ChangeExists,
    NoSuchChange,
    OpeningPeriod,
    YearOffRange,
    ExceptionExists,
    NoSuchException,
    TooManyLands,
    TooManyChanges,
    TooManyExceptions,
    NothingPending,
    JournalFull,
    EditionsFull,
    BadDate,
    StyleNeedsJulian,
}

use Refusal::*;

pub enum Action {
    AddLand { name: String, regime: Regime },
    AddChange { day: i64, regime: Regime },
    AlterChange { day: i64, regime: Regime },
    DropChange { day: i64 },
    AddException { year: i64, day: i64 },
    DropException { year: i64 },
}

pub struct Edit {
    pub code: String,
    pub action: Action,
}

pub fn ensure(condition: bool, refusal: Refusal) -> Result<(), Refusal> {
    if condition {
        Ok(())
    } else {
        Err(refusal)
    }
}

pub fn check_day(day: i64) -> Result<(), Refusal> {
    ensure((1..=LAST_DAY).contains(&day), DayOffLine)
}

pub fn check_year(year: i64) -> Result<(), Refusal> {
    ensure((1..=LAST_YEAR).contains(&year), YearOffRange)
}

fn check_style(regime: Regime) -> Result<(), Refusal> {
    ensure(regime.has_lawful_style(), StyleNeedsJulian)
}

fn is_code(code: &str) -> bool {
    (2..=8).contains(&code.len())
        && code
            .bytes()
            .all(|b| b.is_ascii_uppercase() || b.is_ascii_digit())
        && code.starts_with(|c: char| c.is_ascii_uppercase())
}

fn is_name(name: &str) -> bool {
    (1..=64).contains(&name.len()) && name.bytes().all(|b| b >= 0x20 && b != 0x7f)
}

#[derive(Default)]
pub struct Register {
    /// Codes and names in the order of addition.
    pub lands: Vec<(String, String)>,
    territories: HashMap<String, Territory>,
}

impl Register {
    pub fn territory(&self, code: &str) -> Result<&Territory, Refusal> {
        ensure(is_code(code), BadCode)?;
        self.territories.get(code).ok_or(UnknownLand)
    }

    fn check(&self, edit: &Edit) -> Result<(), Refusal> {
        if let Action::AddLand { name, regime } = &edit.action {
            ensure(is_code(&edit.code), BadCode)?;
            ensure(is_name(name), BadName)?;
            ensure(!self.territories.contains_key(&edit.code), LandExists)?;
            check_style(*regime)?;
            return ensure(self.lands.len() < LANDS, TooManyLands);
        }
        let territory = self.territory(&edit.code)?;
        match edit.action {
            Action::AddLand { .. } => Ok(()),
            Action::AddChange { day, regime } => {
                check_day(day)?;
                ensure(day > 1, OpeningPeriod)?;
                ensure(!territory.has_start(day), ChangeExists)?;
                check_style(regime)?;
                ensure(territory.changes() < CHANGES, TooManyChanges)
            }
            Action::AlterChange { day, regime } => {
                check_day(day)?;
                ensure(territory.has_start(day), NoSuchChange)?;
                check_style(regime)
            }
            Action::DropChange { day } => {
                check_day(day)?;
                ensure(day > 1, OpeningPeriod)?;
                ensure(territory.has_start(day), NoSuchChange)
            }
            Action::AddException { year, day } => {
                check_day(day)?;
                check_year(year)?;
                ensure(!territory.exceptions.contains_key(&year), ExceptionExists)?;
                ensure(territory.exceptions.len() < EXCEPTIONS, TooManyExceptions)
            }
            Action::DropException { year } => {
                check_year(year)?;
                ensure(territory.exceptions.contains_key(&year), NoSuchException)
            }
        }
    }

    /// Makes an edit that was checked.
    fn apply(&mut self, edit: &Edit) {
        if let Action::AddLand { name, regime } = &edit.action {
            self.lands.push((edit.code.clone(), name.clone()));
            self.territories
                .insert(edit.code.clone(), Territory::new(*regime));
            return;
        }
        let territory = self
            .territories
            .get_mut(&edit.code)
            .expect("a checked edit");
        match edit.action {
            Action::AddLand { .. } => {}
            Action::AddChange { day, regime } | Action::AlterChange { day, regime } => {
                territory.set(day, regime);
            }
            Action::DropChange { day } => territory.remove(day),
            Action::AddException { year, day } => {
                territory.exceptions.insert(year, day);
            }
            Action::DropException { year } => {
                territory.exceptions.remove(&year);
            }
        }
    }
}

#[derive(Default)]
pub struct Editor {
    pub published: Register,
    pub edition: usize,
    draft: Register,
    pending: Vec<Edit>,
    edits: usize,
}

impl Editor {
    /// Stages an edit, and returns how many are pending.
    pub fn stage(&mut self, edit: Edit) -> Result<usize, Refusal> {
        self.draft.check(&edit)?;
        ensure(self.edits < EDITS, JournalFull)?;
        self.draft.apply(&edit);
        self.pending.push(edit);
        self.edits += 1;
        Ok(self.pending.len())
    }

    /// Publishes all pending edits, and returns the number of the edition.
    pub fn publish(&mut self) -> Result<usize, Refusal> {
        ensure(!self.pending.is_empty(), NothingPending)?;
        ensure(self.edition < EDITIONS, EditionsFull)?;
        for edit in self.pending.drain(..) {
            self.published.apply(&edit);
        }
        self.edition += 1;
        Ok(self.edition)
    }
}
