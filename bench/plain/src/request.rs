//! From a line to a request.

use crate::calendar::{Calendar, Date};
use crate::computus::Rule;
use crate::register::{Action, Edit};
use crate::territory::{Regime, Style};
use serde_json::{Map, Value};

const LONGEST_LINE: usize = 65_536;
const READERS: i64 = 8;

pub enum Fault {
    LineTooLong,
    NotJson,
    NotObject,
    BadField(&'static str),
    UnknownOp,
    UnknownReader,
}

pub enum Query {
    Read { code: String, label: Date },
    Day { code: String, day: i64 },
    Easter { code: String, year: i64 },
    Figures { year: i64 },
    Lands,
    Periods { code: String },
}

pub enum Request {
    Stage(Edit),
    Publish,
    Ask { reader: i64, query: Query },
}

/// The members of a line's object.
struct Members(Map<String, Value>);

impl Members {
    fn text(&self, name: &'static str) -> Result<&str, Fault> {
        self.0
            .get(name)
            .and_then(Value::as_str)
            .ok_or(Fault::BadField(name))
    }

    fn code(&self) -> Result<String, Fault> {
        self.text("code").map(str::to_string)
    }

    fn whole(&self, name: &'static str) -> Result<i64, Fault> {
        self.0
            .get(name)
            .and_then(Value::as_i64)
            .ok_or(Fault::BadField(name))
    }

    fn regime(&self) -> Result<Regime, Fault> {
        let calendar = match self.text("calendar")? {
            "julian" => Calendar::Julian,
            "gregorian" => Calendar::Gregorian,
            "swedish" => Calendar::Swedish,
            _ => return Err(Fault::BadField("calendar")),
        };
        let style = match self.text("style")? {
            "january" => Style::January,
            "annunciation" => Style::Annunciation,
            "nativity" => Style::Nativity,
            "september" => Style::September,
            "pisan" => Style::Pisan,
            "easter" => Style::Easter,
            _ => return Err(Fault::BadField("style")),
        };
        let rule = match self.text("rule")? {
            "julian" => Rule::Julian,
            "gregorian" => Rule::Gregorian,
            _ => return Err(Fault::BadField("rule")),
        };
        Ok(Regime {
            calendar,
            style,
            rule,
        })
    }

    fn edit(&self, action: impl FnOnce() -> Result<Action, Fault>) -> Result<Request, Fault> {
        let code = self.code()?;
        Ok(Request::Stage(Edit {
            code,
            action: action()?,
        }))
    }

    fn query(&self, query: impl FnOnce() -> Result<Query, Fault>) -> Result<Request, Fault> {
        let reader = self.whole("reader")?;
        let query = query()?;
        if !(1..=READERS).contains(&reader) {
            return Err(Fault::UnknownReader);
        }
        Ok(Request::Ask { reader, query })
    }

    fn label(&self) -> Result<Date, Fault> {
        let (year, month) = (self.whole("year")?, self.whole("month")?);
        Ok(Date::new(year, month, self.whole("day")?))
    }

    fn land(&self) -> Result<Action, Fault> {
        let name = self.text("name")?.to_string();
        Ok(Action::AddLand {
            name,
            regime: self.regime()?,
        })
    }

    fn request(&self) -> Result<Request, Fault> {
        let day = || self.whole("day");
        let year = || self.whole("year");
        let regime = || self.regime();
        match self.text("op")? {
            "add_land" => self.edit(|| self.land()),
            "add_change" => self.edit(|| {
                Ok(Action::AddChange {
                    day: day()?,
                    regime: regime()?,
                })
            }),
            "alter_change" => self.edit(|| {
                Ok(Action::AlterChange {
                    day: day()?,
                    regime: regime()?,
                })
            }),
            "drop_change" => self.edit(|| Ok(Action::DropChange { day: day()? })),
            "add_exception" => self.edit(|| {
                Ok(Action::AddException {
                    year: year()?,
                    day: day()?,
                })
            }),
            "drop_exception" => self.edit(|| Ok(Action::DropException { year: year()? })),
            "publish" => Ok(Request::Publish),
            "read" => self.query(|| {
                Ok(Query::Read {
                    code: self.code()?,
                    label: self.label()?,
                })
            }),
            "day" => self.query(|| {
                Ok(Query::Day {
                    code: self.code()?,
                    day: day()?,
                })
            }),
            "easter" => self.query(|| {
                Ok(Query::Easter {
                    code: self.code()?,
                    year: year()?,
                })
            }),
            "figures" => self.query(|| Ok(Query::Figures { year: year()? })),
            "lands" => self.query(|| Ok(Query::Lands)),
            "periods" => self.query(|| Ok(Query::Periods { code: self.code()? })),
            _ => Err(Fault::UnknownOp),
        }
    }
}

/// The request of a line, which is given without its line feed.
pub fn read_request(line: &[u8]) -> Result<Request, Fault> {
    if line.len() > LONGEST_LINE {
        return Err(Fault::LineTooLong);
    }
    match serde_json::from_slice(line).map_err(|_| Fault::NotJson)? {
        Value::Object(members) => Members(members).request(),
        _ => Err(Fault::NotObject),
    }
}
