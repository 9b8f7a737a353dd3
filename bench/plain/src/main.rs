//! The calendar change register, written by hand for comparison with the proved one: the same
//! lines in, the same bytes out.

mod calendar;
mod computus;
mod desk;
mod register;
mod reply;
mod request;
mod territory;

use request::Request;
use std::io::{self, BufRead, BufReader, BufWriter, Read, Write};

/// Reads the next line without its line feed, and returns whether there is one. Before it waits for
/// more, it passes on what was written.
fn next_line<R: Read>(
    input: &mut BufReader<R>,
    output: &mut impl Write,
    line: &mut Vec<u8>,
) -> io::Result<bool> {
    line.clear();
    loop {
        if input.buffer().is_empty() {
            output.flush()?;
        }
        let mut ahead = input.fill_buf()?;
        if ahead.is_empty() {
            return Ok(!line.is_empty());
        }
        let used = ahead.read_until(b'\n', line)?;
        input.consume(used);
        if line.last() == Some(&b'\n') {
            line.pop();
            return Ok(true);
        }
    }
}

/// Reads every line into a JSON value, and throws it away.
fn parse_lines() -> io::Result<()> {
    let mut input = BufReader::with_capacity(1 << 16, io::stdin().lock());
    let mut line = Vec::new();
    while next_line(&mut input, &mut io::sink(), &mut line)? {
        let _value: serde_json::Value = serde_json::from_slice(&line)?;
    }
    Ok(())
}

/// Reads every line into a JSON value, and writes for each a line of this many bytes.
fn answer_blindly(length: usize) -> io::Result<()> {
    let mut input = BufReader::with_capacity(1 << 16, io::stdin().lock());
    let mut output = BufWriter::with_capacity(1 << 16, io::stdout().lock());
    let reply = [vec![b' '; length], vec![b'\n']].concat();
    let mut line = Vec::new();
    while next_line(&mut input, &mut output, &mut line)? {
        let _value: serde_json::Value = serde_json::from_slice(&line)?;
        output.write_all(&reply)?;
    }
    output.flush()
}

/// Makes the edits of all requests, and then lets readers ask their queries at a desk.
fn run_desk(words: &[String]) -> io::Result<()> {
    let mut input = BufReader::with_capacity(1 << 16, io::stdin().lock());
    let (mut editor, mut queries) = (register::Editor::default(), Vec::new());
    let mut line = Vec::new();
    while next_line(&mut input, &mut io::sink(), &mut line)? {
        match request::read_request(&line) {
            Ok(Request::Ask { query, .. }) => queries.push(query),
            request => {
                reply::reply(&mut editor, request);
            }
        }
    }
    let number = |place: usize| words[place].parse().expect("a number");
    let load = desk::Load {
        readers: number(1) as usize,
        readings: number(2),
        editions: number(3),
    };
    let outcome = desk::measure(&words[0], load, editor, &queries).expect("mutex or rwlock");
    println!(
        "{} {} {}",
        outcome.took.as_nanos(),
        outcome.edition,
        outcome.sum
    );
    Ok(())
}

fn serve() -> io::Result<()> {
    let mut input = BufReader::with_capacity(1 << 16, io::stdin().lock());
    let mut output = BufWriter::with_capacity(1 << 16, io::stdout().lock());
    let mut editor = register::Editor::default();
    let mut line = Vec::new();
    while next_line(&mut input, &mut output, &mut line)? {
        let reply = reply::reply(&mut editor, request::read_request(&line));
        serde_json::to_writer(&mut output, &reply)?;
        output.write_all(b"\n")?;
    }
    output.flush()
}

/// Serves without a word. The words are `parse`, `floor` with the length of a reply, or `desk` with
/// a lock, readers, readings and editions.
fn main() -> io::Result<()> {
    let words: Vec<String> = std::env::args().skip(1).collect();
    match words.first().map(String::as_str) {
        Some("parse") => parse_lines(),
        Some("floor") => answer_blindly(words[1].parse().expect("a number")),
        Some("desk") => run_desk(&words[1..]),
        _ => serve(),
    }
}
