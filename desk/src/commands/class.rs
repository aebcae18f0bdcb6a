//! Every hand-in of a folder.

use crate::answer::{answer, failure, note, Answered, BAD, GOOD, REFUSED};
use crate::arguments::Call;
use crate::calls;
use crate::csv;
use crate::files::{read, Source};
use crate::folder::{self, fetch, Entry};
use crate::grade::{grade, graded, Grade, Graded};
use crate::say;
use crate::show::{table, Line};
use crate::words::{calling, class};
use std::io::IsTerminal;
use std::path::Path;
use std::sync::atomic::{AtomicUsize, Ordering};
use std::sync::mpsc::{channel, Receiver};
use std::thread;
use std::time::{Duration, Instant};

/// Writes a table for spreadsheets.
pub const CSV: &str = "--csv";

/// The stack of a thread; a call needs under 640 KB of it.
const STACK: usize = 8 << 20;

/// How often the progress is said at most.
const OFTEN: Duration = Duration::from_millis(100);

/// A hand-in in the table: its grade by the learner's own model and by the given one, the worse of them, and where and why it is not right.
struct Row {
    name: String,
    own: Option<Grade>,
    given: Option<Grade>,
    grade: Grade,
    why: String,
}

pub fn run(call: &Call) -> Answered {
    let (name, model) = match call.names.as_slice() {
        [name] => (name, None),
        [name, model] => (name, Some(model)),
        _ => return Err(call.other_names()),
    };
    let given = model.map(|m| read(m, calls::MODEL)).transpose()?;
    if let Some(given) = &given {
        say::accepted(given).map(drop)?;
    }
    let found = folder::list(Path::new(name), model.map(Path::new)).map_err(|_| failure(calling::no_folder(name)))?;
    if found.entries.is_empty() {
        return Err(failure(class::no_handins(name)));
    }
    let rows = rows(&found.entries, given.as_ref());
    let counts = counts(&rows, found.others);
    if call.has(CSV) {
        note(&counts);
        return Ok(answer(spreadsheet(&rows), status(&rows)));
    }
    let table = shown(&rows, given.is_some());
    Ok(answer(format!("{table}\n{counts}{}\n", class::more()), status(&rows)))
}

/// The rows of all entries, found by as many threads as there are cores; what no thread found, since none could be started, is found at the end.
fn rows(entries: &[Entry], given: Option<&Source>) -> Vec<Row> {
    let next = AtomicUsize::new(0);
    let (sender, receiver) = channel();
    let found = thread::scope(|scope| {
        for _ in 0..thread::available_parallelism().map_or(1, usize::from) {
            let (next, sender) = (&next, sender.clone());
            let work = move || loop {
                let i = next.fetch_add(1, Ordering::Relaxed);
                let Some(entry) = entries.get(i) else { return };
                if sender.send((i, row(entry, given))).is_err() {
                    return;
                }
            };
            if thread::Builder::new().stack_size(STACK).spawn_scoped(scope, work).is_err() {
                break;
            }
        }
        drop(sender);
        received(entries.len(), &receiver)
    });
    found
        .into_iter()
        .zip(entries)
        .map(|(found, entry)| found.unwrap_or_else(|| row(entry, given)))
        .collect()
}

/// The rows that threads find, each at its place; the progress is said where somebody sees it.
fn received(all: usize, receiver: &Receiver<(usize, Row)>) -> Vec<Option<Row>> {
    let mut rows: Vec<Option<Row>> = (0..all).map(|_| None).collect();
    let seen = std::io::stderr().is_terminal();
    let mut said = Instant::now();
    for (done, (i, row)) in receiver.iter().enumerate() {
        rows[i] = Some(row);
        if seen && said.elapsed() >= OFTEN {
            note(&format!("\r{}", class::progress(done + 1, all)));
            said = Instant::now();
        }
    }
    if seen {
        note("\r\x1b[K");
    }
    rows
}

/// The row of an entry.
fn row(entry: &Entry, given: Option<&Source>) -> Row {
    let whole = |g: Graded| Row {
        name: entry.name.clone(),
        own: None,
        given: None,
        grade: g.grade,
        why: g.why,
    };
    let Some(path) = &entry.answer else {
        return whole(graded(Grade::Incomplete, class::missing(&entry.answer_name())));
    };
    let handin = match fetch(path, entry.answer_name(), calls::HANDIN) {
        Ok(handin) => handin,
        Err(why) => return whole(graded(Grade::NoFile, why)),
    };
    let own = entry.model.as_ref().map(|path| match fetch(path, entry.model_name(), calls::MODEL) {
        Ok(text) => grade(&text, &handin),
        Err(why) => graded(Grade::NoFile, why),
    });
    let given = given.map(|text| grade(text, &handin));
    match (own, given) {
        (None, None) => whole(graded(Grade::Incomplete, class::missing(&entry.model_name()))),
        (Some(own), None) => Row {
            own: Some(own.grade),
            ..whole(own)
        },
        (None, Some(given)) => Row {
            given: Some(given.grade),
            ..whole(given)
        },
        (Some(own), Some(given)) => Row {
            own: Some(own.grade),
            given: Some(given.grade),
            ..whole(graded(own.grade.max(given.grade), both(&own, &given)))
        },
    }
}

/// Where and why a hand-in is not right by two models.
fn both(own: &Graded, given: &Graded) -> String {
    if own.why == given.why {
        return own.why.clone();
    }
    let mut why = Vec::new();
    if own.grade != Grade::Right {
        why.push(class::by_own(&own.why));
    }
    if given.grade != Grade::Right {
        why.push(class::by_given(&given.why));
    }
    why.join("; ")
}

/// A grade by one model, or nothing where there is none.
fn word(grade: Option<Grade>) -> String {
    grade.map_or(String::new(), Grade::word)
}

/// The cells of a row: with a given model the grades by both models stand beside the mark.
fn cells(row: &Row, two: bool) -> Vec<String> {
    let mut cells = vec![row.name.clone(), row.grade.word()];
    if two {
        cells.extend([word(row.own), word(row.given)]);
    }
    cells.push(row.why.clone());
    cells
}

fn heads(two: bool) -> Vec<String> {
    let mut heads = vec![class::head_name(), class::head_mark()];
    if two {
        heads.extend([class::head_own(), class::head_given()]);
    }
    heads.push(class::head_why());
    heads
}

fn shown(rows: &[Row], two: bool) -> String {
    let lines: Vec<Line> = rows.iter().map(|r| Line::Cells(cells(r, two))).collect();
    table(&heads(two), &lines)
}

fn spreadsheet(rows: &[Row]) -> String {
    let lines: String = rows.iter().map(|r| csv::line(&cells(r, true))).collect();
    format!("{}{lines}", csv::line(&heads(true)))
}

/// How many hand-ins have each grade, and how many other files there are.
fn counts(rows: &[Row], others: usize) -> String {
    let of = |grade: Grade| rows.iter().filter(|r| r.grade == grade).count();
    let counts = class::counts(
        rows.len(),
        of(Grade::Right),
        of(Grade::Wrong),
        of(Grade::Refused),
        of(Grade::Unreadable),
        of(Grade::Incomplete),
        of(Grade::NoFile),
    );
    match others {
        0 => format!("{counts}\n"),
        _ => format!("{counts}\n{}\n", class::others(others)),
    }
}

/// The status: that of the worst grade.
fn status(rows: &[Row]) -> i32 {
    match rows.iter().map(|r| r.grade).max() {
        None | Some(Grade::Right) => GOOD,
        Some(Grade::Wrong) => BAD,
        _ => REFUSED,
    }
}
