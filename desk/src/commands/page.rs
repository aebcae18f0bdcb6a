//! A run as a page.

use crate::answer::{answer, Answered, BAD, GOOD, REFUSED};
use crate::arguments::Call;
use crate::calls::{self, Analysis, Handin, Refusal, Replay, TOO_MANY};
use crate::commands::explain::{sources, ALL};
use crate::commands::mark::said;
use crate::files::Source;
use crate::html::{self, escaped};
use crate::model::Model;
use crate::parts::Part;
use crate::say::{self, Handed};
use crate::table::{heads, Done, Row, Run, CLEARS, SETS};
use crate::text::readable;
use crate::words::{marks, page, runs};

pub fn run(call: &Call) -> Answered {
    let (text, handin) = sources(call)?;
    let (body, status) = body(&text, handin.as_ref(), call.has(ALL));
    let title = match &handin {
        None => text.name.clone(),
        Some(handin) => format!("{}, {}", text.name, handin.name),
    };
    Ok(answer(html::page(&title, &format!("{body}{}", lines(&text))), status))
}

/// What the page says above the model, and the status.
fn body(text: &Source, handin: Option<&Source>, all: bool) -> (String, i32) {
    let analysis = calls::analyze(&text.bytes);
    if let Err(r) = analysis.as_ref().map_err(|r| *r) {
        if r.number != TOO_MANY {
            return (result(&say::refusal(text, r)), REFUSED);
        }
    }
    let Some(handin) = handin else {
        return shown(text, None, &analysis, all);
    };
    match calls::handin(&handin.bytes) {
        Handin::Unreadable { line } => (result(&say::unreadable(handin, line)), REFUSED),
        Handin::No => shown(text, Some(handin), &analysis, all),
        Handin::Yes { first, run } => handed(text, &Handed { handin, first, run: &run }, &analysis, all),
    }
}

/// The run of a hand-in.
fn handed(text: &Source, handed: &Handed, analysis: &Result<Analysis, Refusal>, all: bool) -> (String, i32) {
    let model = Model::new(text.bytes.clone());
    let (run, replay) = Run::handed(&model, handed);
    let name = &handed.handin.name;
    let (heading, broken, status) = match replay {
        Replay::Kept => (marks::run_kept(name), String::new(), GOOD),
        _ => {
            let parts = html::parts(&say::broken(&model, handed));
            (marks::run_breaks(name), html::section(&page::break_heading(), &parts), BAD)
        }
    };
    let states = analysis.as_ref().map_or(String::new(), |a| states(&model, a));
    let result = asked(&model, marked(text, handed.handin));
    (format!("{result}{}{broken}{states}", steps(&heading, &model, &run, all)), status)
}

/// The run that the analysis shows, or that there is none; and what a hand-in that says no is worth.
fn shown(text: &Source, handin: Option<&Source>, analysis: &Result<Analysis, Refusal>, all: bool) -> (String, i32) {
    let analysis = match analysis {
        Ok(analysis) => analysis,
        Err(r) => return (result(&say::refusal(text, *r)), REFUSED),
    };
    let model = Model::new(text.bytes.clone());
    let verdict = if analysis.run.is_some() { marks::reached() } else { marks::unreached() };
    let said = handin.map_or_else(|| vec![Part::Says(verdict)], |h| marked(text, h));
    let run = analysis.run.as_ref().map(|run| Run::analyzed(&model, run));
    let steps = run.map_or(String::new(), |run| steps(&marks::shown_run(), &model, &run, all));
    (format!("{}{steps}{}", asked(&model, said), states(&model, analysis)), GOOD)
}

/// What a hand-in is worth.
fn marked(text: &Source, handin: &Source) -> Vec<Part> {
    let mark = calls::mark(&text.bytes, &handin.bytes);
    said(text, handin, &mark).0
}

/// The verdict or the mark, and the question.
fn asked(model: &Model, mut said: Vec<Part>) -> String {
    let line = model.question();
    said.extend([Part::Says(page::question()), Part::Line(line, readable(model.line(line)))]);
    result(&said)
}

/// The verdict, the mark or a refusal.
fn result(parts: &[Part]) -> String {
    html::section(&page::result(), &format!("<div class=\"result\">\n{}</div>\n", html::parts(parts)))
}

/// What an object can be.
fn states(model: &Model, analysis: &Analysis) -> String {
    let items: Vec<String> = analysis.states.iter().map(|&s| model.state(s)).collect();
    html::section(&page::states(), &html::list(&items))
}

/// The lines of the model.
fn lines(text: &Source) -> String {
    let bytes = text.bytes.strip_suffix(b"\n").unwrap_or(&text.bytes);
    let lines: Vec<String> = bytes.split(|&b| b == b'\n').map(readable).collect();
    html::section(&page::model(), &html::model(&page::model_caption(&text.name), &lines))
}

/// The steps of a run as a table.
fn steps(heading: &str, model: &Model, run: &Run, all: bool) -> String {
    let rows: String = run.rows(all).iter().map(|r| row(model, &run.heading, r)).collect();
    let said = html::parts(&[Part::Says(heading.to_string())]);
    let table = html::table("run", &page::run_caption(), &heads(&run.heading), &rows);
    html::section(&page::run(), &format!("{said}{table}"))
}

/// A row of a run; a step links to its line, and a meeting to the question.
fn row(model: &Model, heading: &str, row: &Row) -> String {
    match row {
        Row::Step(place, done) => format!("<tr>{}{}</tr>\n", head(heading, place), step(done)),
        Row::Meeting(place, words) => {
            let question = html::link(model.question(), &runs::line(model.question()));
            format!(
                "<tr>{}<td>{question}</td><td colspan=\"5\">{}</td></tr>\n",
                head(heading, place),
                escaped(words)
            )
        }
        Row::Folded(place, words) => format!("<tr>{}<td colspan=\"6\">{}</td></tr>\n", head(heading, place), escaped(words)),
    }
}

/// The cell that names a row; on a narrow screen the column's head stands in it.
fn head(heading: &str, place: &str) -> String {
    format!("<th scope=\"row\" data-head=\"{}\">{}</th>", escaped(heading), escaped(place))
}

/// The cells of a step, each under its head.
fn step(done: &Done) -> String {
    let cells = [
        (runs::head_model(), html::link(done.line, &runs::line(done.line))),
        (runs::head_who(), escaped(&done.who)),
        (runs::head_sets(), labels(&done.sets, "set", SETS, &page::set())),
        (runs::head_clears(), labels(&done.clears, "cleared", CLEARS, &page::cleared())),
        (runs::head_then(), escaped(&done.then)),
        (runs::head_stood(), escaped(&done.stood)),
    ];
    cells.iter().map(|(head, inner)| cell(head, inner)).collect()
}

/// A cell; on a narrow screen its head stands in it.
fn cell(head: &str, inner: &str) -> String {
    format!("<td data-head=\"{}\">{inner}</td>", escaped(head))
}

/// Labels that are set or cleared, each with its sign and its word.
fn labels(labels: &[String], class: &str, sign: &str, word: &str) -> String {
    let label = |l: &String| {
        format!(
            "<span class=\"{class}\">{sign}{} <span class=\"word\">{}</span></span>",
            escaped(l),
            escaped(word)
        )
    };
    labels.iter().map(label).collect::<Vec<_>>().join(" ")
}
