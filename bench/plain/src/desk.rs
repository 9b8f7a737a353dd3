//! Readers at work, each in a thread of its own, while an editor publishes: the register behind a
//! lock, which each reading takes to read and each edition to write.

use crate::calendar::Date;
use crate::register::{Action, Edit, Editor, Refusal};
use crate::request::Query;
use crate::territory::Territory;
use std::sync::atomic::{AtomicU64, Ordering};
use std::sync::{Mutex, RwLock};
use std::thread;
use std::time::{Duration, Instant};

/// How far apart the readers begin in the list of queries.
const APART: usize = 997;

/// The number of readings after which the first reader says how far it is.
const STRIDE: u64 = 64;

/// How long the editor sleeps if no edition is due.
const PAUSE: Duration = Duration::from_micros(20);

/// The territory that the editor lists an Easter of, and drops it again.
const EDITED: &str = "T00000";

/// What to do: readers, the readings of each, and the editions meanwhile.
#[derive(Clone, Copy)]
pub struct Load {
    pub readers: usize,
    pub readings: u64,
    pub editions: u64,
}

/// What readers were answered.
#[derive(Clone, Copy, Default)]
pub struct Outcome {
    pub took: Duration,
    pub edition: usize,
    pub sum: u64,
}

impl Outcome {
    fn and(self, other: Outcome) -> Outcome {
        Outcome {
            took: self.took.max(other.took),
            edition: self.edition.max(other.edition),
            sum: self.sum.wrapping_add(other.sum),
        }
    }
}

/// The register behind a lock.
trait Shared: Sync {
    fn read<T>(&self, ask: impl FnOnce(&Editor) -> T) -> T;

    fn write<T>(&self, edit: impl FnOnce(&mut Editor) -> T) -> T;
}

impl Shared for Mutex<Editor> {
    fn read<T>(&self, ask: impl FnOnce(&Editor) -> T) -> T {
        ask(&self.lock().expect("no thread panics"))
    }

    fn write<T>(&self, edit: impl FnOnce(&mut Editor) -> T) -> T {
        edit(&mut self.lock().expect("no thread panics"))
    }
}

impl Shared for RwLock<Editor> {
    fn read<T>(&self, ask: impl FnOnce(&Editor) -> T) -> T {
        ask(&RwLock::read(self).expect("no thread panics"))
    }

    fn write<T>(&self, edit: impl FnOnce(&mut Editor) -> T) -> T {
        edit(&mut RwLock::write(self).expect("no thread panics"))
    }
}

/// A day as a territory names it.
struct Found {
    day: i64,
    label: Date,
    dual: String,
}

/// What a reader is answered.
struct Reply {
    edition: usize,
    found: Vec<Found>,
    skipped: Vec<i64>,
}

impl Reply {
    /// The sum, for each day, of its number, its day of the month and the length of its dual date;
    /// for each change of its number.
    fn sum(&self) -> u64 {
        let sum_of = |found: &Found| found.day + found.label.day + found.dual.len() as i64;
        let found: i64 = self.found.iter().map(sum_of).sum();
        let skipped: i64 = self.skipped.iter().sum();
        (found + skipped) as u64
    }
}

fn found(territory: &Territory, day: i64) -> Found {
    let regime = territory.period_at(day).regime;
    Found {
        day,
        label: regime.label_of(day),
        dual: regime.dual_text(day),
    }
}

fn reply(editor: &Editor, query: &Query) -> Result<Reply, Refusal> {
    let Query::Read { code, label } = query else {
        return Err(Refusal::BadDate);
    };
    let territory = editor.published.territory(code)?;
    let (days, skipped) = territory.read(*label);
    Ok(Reply {
        edition: editor.edition,
        found: days.iter().map(|&day| found(territory, day)).collect(),
        skipped,
    })
}

/// What the threads share.
struct Desk<'a, S: Shared> {
    load: Load,
    register: &'a S,
    queries: &'a [Query],
    /// The readings of the first reader.
    progress: &'a AtomicU64,
    start: Instant,
}

impl<S: Shared> Desk<'_, S> {
    /// The readings of one reader. The first one, 0, says how far it is.
    fn work(&self, who: usize) -> Outcome {
        let mut outcome = Outcome::default();
        let begin = who * APART % self.queries.len();
        let queries = self.queries.iter().cycle().skip(begin);
        for (count, query) in (0..self.load.readings).zip(queries) {
            let reply = self.register.read(|editor| reply(editor, query));
            let reply = reply.expect("a lawful reading");
            outcome.edition = reply.edition;
            outcome.sum = outcome.sum.wrapping_add(reply.sum());
            if who == 0 && count % STRIDE == 0 {
                self.progress.store(count, Ordering::SeqCst);
            }
        }
        if who == 0 {
            self.progress.store(u64::MAX, Ordering::SeqCst);
        }
        outcome.took = self.start.elapsed();
        outcome
    }

    /// Publishes the editions, spread over the readings of the first reader.
    fn publish_all(&self) {
        let step = self.load.readings.checked_div(self.load.editions);
        for place in 0..self.load.editions {
            let due = place * step.unwrap_or(0);
            while self.progress.load(Ordering::SeqCst) < due {
                thread::sleep(PAUSE);
            }
            let edition = self.register.write(|editor| {
                editor.stage(edit(place))?;
                editor.publish()
            });
            edition.expect("a lawful edition");
        }
    }

    /// Runs the readers and the editor.
    fn run(&self) -> Outcome {
        thread::scope(|scope| {
            let start = |who| scope.spawn(move || self.work(who));
            let readers: Vec<_> = (0..self.load.readers).map(start).collect();
            self.publish_all();
            let outcome = readers.into_iter().map(|reader| reader.join());
            outcome
                .map(|outcome| outcome.expect("no thread panics"))
                .fold(Outcome::default(), Outcome::and)
        })
    }
}

fn edit(place: u64) -> Edit {
    let action = if place % 2 == 0 {
        Action::AddException {
            year: 1724,
            day: 629_412,
        }
    } else {
        Action::DropException { year: 1724 }
    };
    Edit {
        code: EDITED.to_string(),
        action,
    }
}

fn run(load: Load, register: impl Shared, queries: &[Query]) -> Outcome {
    let desk = Desk {
        load,
        register: &register,
        queries,
        progress: &AtomicU64::new(0),
        start: Instant::now(),
    };
    desk.run()
}

/// The answers of the register behind the lock of that name to these queries.
pub fn measure(lock: &str, load: Load, editor: Editor, queries: &[Query]) -> Option<Outcome> {
    match lock {
        "mutex" => Some(run(load, Mutex::new(editor), queries)),
        "rwlock" => Some(run(load, RwLock::new(editor), queries)),
        _ => None,
    }
}
