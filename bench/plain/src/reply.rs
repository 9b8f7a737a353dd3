//! From a request to the JSON value of its reply.

use crate::calendar::{date_of, Calendar, Date, LAST_LABEL_YEAR};
use crate::computus::{
    easter, golden_number, gregorian_epact, indiction, julian_epact, sunday_letters, Rule,
};
use crate::register::{check_day, check_year, ensure, Editor, Refusal, Register};
use crate::request::{Fault, Query, Request};
use crate::territory::{Period, Regime, Style, Territory};
use serde_json::{json, Value};

const WEEKDAYS: [&str; 7] = [
    "Sunday",
    "Monday",
    "Tuesday",
    "Wednesday",
    "Thursday",
    "Friday",
    "Saturday",
];

fn date_text(date: Date) -> String {
    format!("{:04}-{:02}-{:02}", date.year, date.month, date.day)
}

fn calendar_word(calendar: Calendar) -> &'static str {
    match calendar {
        Calendar::Julian => "julian",
        Calendar::Gregorian => "gregorian",
        Calendar::Swedish => "swedish",
    }
}

fn style_word(style: Style) -> &'static str {
    match style {
        Style::January => "january",
        Style::Annunciation => "annunciation",
        Style::Nativity => "nativity",
        Style::September => "september",
        Style::Pisan => "pisan",
        Style::Easter => "easter",
    }
}

fn rule_word(rule: Rule) -> &'static str {
    match rule {
        Rule::Julian => "julian",
        Rule::Gregorian => "gregorian",
    }
}

fn found(regime: Regime, day: i64) -> Value {
    json!({
        "day": day,
        "dual": regime.dual_text(day),
        "gregorian": date_text(date_of(Calendar::Gregorian, day)),
        "jdn": day + 1_721_425,
        "julian": date_text(date_of(Calendar::Julian, day)),
        "label": date_text(regime.label_of(day)),
        "weekday": WEEKDAYS[(day % 7) as usize],
    })
}

fn found_all(territory: &Territory, days: &[i64]) -> Vec<Value> {
    days.iter()
        .map(|&day| found(territory.period_at(day).regime, day))
        .collect()
}

fn regime_value(regime: Regime) -> Value {
    json!({
        "calendar": calendar_word(regime.calendar),
        "rule": rule_word(regime.rule),
        "style": style_word(regime.style),
    })
}

fn period_value(period: Period) -> Value {
    json!({
        "calendar": calendar_word(period.regime.calendar),
        "first": period.first,
        "last": period.last,
        "rule": rule_word(period.regime.rule),
        "style": style_word(period.regime.style),
    })
}

fn reading(territory: &Territory, label: Date) -> Result<Value, Refusal> {
    ensure((0..=LAST_LABEL_YEAR).contains(&label.year), Refusal::YearOffRange)?;
    let is_date = (1..=12).contains(&label.month) && (1..=31).contains(&label.day);
    ensure(is_date, Refusal::BadDate)?;
    let (days, skipped) = territory.read(label);
    Ok(json!({"days": found_all(territory, &days), "skipped": skipped}))
}

fn on_day(territory: &Territory, day: i64) -> Result<Value, Refusal> {
    check_day(day)?;
    let Period {
        first,
        last,
        regime,
    } = territory.period_at(day);
    Ok(json!({
        "first": first,
        "found": found(regime, day),
        "last": last,
        "regime": regime_value(regime),
    }))
}

fn easters(territory: &Territory, year: i64) -> Result<Value, Refusal> {
    check_year(year)?;
    let (days, listed) = territory.easters(year);
    Ok(json!({"days": found_all(territory, &days), "listed": listed}))
}

fn figures(year: i64) -> Result<Value, Refusal> {
    check_year(year)?;
    Ok(json!({
        "golden": golden_number(year),
        "gregorian": {
            "easter": easter(Rule::Gregorian, year),
            "epact": gregorian_epact(year),
            "letters": sunday_letters(Calendar::Gregorian, year),
        },
        "indiction": indiction(year),
        "julian": {
            "easter": easter(Rule::Julian, year),
            "epact": julian_epact(year),
            "letters": sunday_letters(Calendar::Julian, year),
        },
        "year": year,
    }))
}

fn lands(register: &Register) -> Value {
    let land = |(code, name): &(String, String)| json!({"code": code, "name": name});
    json!({"lands": register.lands.iter().map(land).collect::<Vec<_>>()})
}

fn answer(register: &Register, query: Query) -> Result<Value, Refusal> {
    match query {
        Query::Read { code, label } => reading(register.territory(&code)?, label),
        Query::Day { code, day } => on_day(register.territory(&code)?, day),
        Query::Easter { code, year } => easters(register.territory(&code)?, year),
        Query::Figures { year } => figures(year),
        Query::Lands => Ok(lands(register)),
        Query::Periods { code } => {
            let periods = register.territory(&code)?.periods().map(period_value);
            Ok(json!({"periods": periods.collect::<Vec<_>>()}))
        }
    }
}

fn refused(refusal: Refusal) -> Value {
    json!({"fault": refusal as u32, "name": format!("{refusal:?}")})
}

fn replied(editor: &Editor, reader: i64, query: Query) -> Value {
    match answer(&editor.published, query) {
        Ok(answer) => json!({"answer": answer, "edition": editor.edition, "reader": reader}),
        Err(refusal) => json!({
            "edition": editor.edition,
            "fault": refusal as u32,
            "name": format!("{refusal:?}"),
            "reader": reader,
        }),
    }
}

fn faulted(fault: Fault) -> Value {
    let (number, name) = match fault {
        Fault::LineTooLong => (31, "LineTooLong"),
        Fault::NotJson => (32, "NotJson"),
        Fault::NotObject => (33, "NotObject"),
        Fault::BadField(field) => {
            return json!({"fault": 34, "field": field, "name": "BadField"});
        }
        Fault::UnknownOp => (35, "UnknownOp"),
        Fault::UnknownReader => (36, "UnknownReader"),
    };
    json!({"fault": number, "name": name})
}

pub fn reply(editor: &mut Editor, request: Result<Request, Fault>) -> Value {
    match request {
        Ok(Request::Stage(edit)) => match editor.stage(edit) {
            Ok(pending) => json!({"ok": "staged", "pending": pending}),
            Err(refusal) => refused(refusal),
        },
        Ok(Request::Publish) => match editor.publish() {
            Ok(edition) => json!({"edition": edition, "ok": "published"}),
            Err(refusal) => refused(refusal),
        },
        Ok(Request::Ask { reader, query }) => replied(editor, reader, query),
        Err(fault) => faulted(fault),
    }
}
