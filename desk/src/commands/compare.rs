//! Two models side by side.

use crate::answer::{answer, Answered, BAD, GOOD, REFUSED};
use crate::arguments::Call;
use crate::calls::{self, Analysis};
use crate::files::{read, Source};
use crate::model::Model;
use crate::parts::{plain, Part};
use crate::say;
use crate::show::{table, Line};
use crate::table::{change, signed, CLEARS, SETS};
use crate::text::or;
use crate::words::questions;
use std::collections::BTreeSet;

/// A model and its analysis.
struct Side {
    name: String,
    model: Model,
    analysis: Analysis,
}

pub fn run(call: &Call) -> Answered {
    let [one, other] = call.names.as_slice() else {
        return Err(call.other_names());
    };
    let (one, other) = (read(one, calls::MODEL)?, read(other, calls::MODEL)?);
    let (one, other) = match (side(one), side(other)) {
        (Ok(one), Ok(other)) => (one, other),
        (one, other) => {
            let refusals: String = [one.err(), other.err()].iter().flatten().map(|parts| plain(parts)).collect();
            return Err(answer(refusals, REFUSED));
        }
    };
    let differ = one.reached() != other.reached() || one.sets() != other.sets();
    let (said, status) = if differ { (questions::differ(), BAD) } else { (questions::same(), GOOD) };
    let mut parts = only_sets(&one, &other);
    parts.extend(only_sets(&other, &one));
    parts.extend(only_labels(&one, &other));
    parts.extend(only_labels(&other, &one));
    parts.extend(only_lines(&one, &other));
    parts.extend(only_lines(&other, &one));
    Ok(answer(format!("{said}\n\n{}{}", verdicts(&one, &other), plain(&parts)), status))
}

/// A model with its analysis, or why it has none.
fn side(text: Source) -> Result<Side, Vec<Part>> {
    match calls::analyze(&text.bytes) {
        Ok(analysis) => Ok(Side {
            name: text.name,
            model: Model::new(text.bytes),
            analysis,
        }),
        Err(r) => Err(say::refusal(&text, r)),
    }
}

impl Side {
    fn reached(&self) -> bool {
        self.analysis.run.is_some()
    }

    /// The label sets that an object can have, by names.
    fn sets(&self) -> BTreeSet<BTreeSet<&str>> {
        self.analysis.states.iter().map(|&s| self.names(s)).collect()
    }

    fn names(&self, state: u32) -> BTreeSet<&str> {
        self.model.labels(state).into_iter().collect()
    }

    /// The lines of the text, each with its number.
    fn lines(&self) -> impl Iterator<Item = (usize, &[u8])> {
        (1..=self.model.question()).map(|n| (n, self.model.line(n)))
    }
}

/// The verdicts and the numbers of label sets, side by side.
fn verdicts(one: &Side, other: &Side) -> String {
    let heads = [String::new(), questions::head_verdict(), questions::head_sets_count()];
    let line = |side: &Side| {
        let verdict = if side.reached() {
            questions::verdict_reached()
        } else {
            questions::verdict_unreached()
        };
        Line::Cells(vec![side.name.clone(), verdict, side.analysis.states.len().to_string()])
    };
    table(&heads, &[line(one), line(other)])
}

/// A heading and items, or nothing where there are none.
fn headed(heading: String, items: Vec<String>) -> Vec<Part> {
    if items.is_empty() {
        return Vec::new();
    }
    vec![Part::Says(format!("\n{heading}")), Part::List(items)]
}

/// The label sets that an object can have in this model alone.
fn only_sets(this: &Side, other: &Side) -> Vec<Part> {
    let others = other.sets();
    let states = this.analysis.states.iter().filter(|&&s| !others.contains(&this.names(s)));
    headed(questions::only_can_be(&this.name, &other.name), states.map(|&s| this.model.state(s)).collect())
}

/// The labels that this model alone declares.
fn only_labels(this: &Side, other: &Side) -> Vec<Part> {
    let labels = this.model.declared().iter().filter(|l| !other.model.declared().contains(l));
    headed(questions::only_declared(&this.name, &other.name), labels.cloned().collect())
}

/// The lines that this model alone has, with what they set and clear.
fn only_lines(this: &Side, other: &Side) -> Vec<Part> {
    let others: BTreeSet<&[u8]> = other.lines().map(|(_, text)| text).collect();
    let lines = this.lines().filter(|(_, text)| !others.contains(text));
    headed(
        questions::only_lines(&this.name, &other.name),
        lines.map(|(n, _)| effect(&this.model, n)).collect(),
    )
}

/// A line, and what it sets and clears: what it makes of an object without labels, and of one with every label.
fn effect(model: &Model, line: usize) -> String {
    let every = (1 << model.declared().len()) - 1;
    let numbered = model.numbered(line);
    let after = |state: u32| calls::effect(&model.bytes, line as u32, state);
    let words = |labels: &[String], sign: &str| or(signed(labels, sign), questions::nothing());
    match (after(0), after(every)) {
        (Some((false, least)), Some((_, most))) => {
            let (sets, clears) = (change(model, 0, least).0, change(model, every, most).1);
            questions::sets_and_clears(&numbered, &words(&sets, SETS), &words(&clears, CLEARS))
        }
        _ => numbered,
    }
}
