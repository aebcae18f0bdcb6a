//! The rows of a run's table, for a plain text and for a page.

use crate::calls::{self, Replay};
use crate::model::Model;
use crate::say::Handed;
use crate::story::{self, Event, Meeting, Step};
use crate::text::readable;
use crate::words::runs;
use std::collections::BTreeSet;

/// So many steps of helpers in a row are folded.
const FOLDED: usize = 4;

/// The signs of what is set and what is cleared.
pub const SETS: &str = "+";
pub const CLEARS: &str = "\u{2212}";

/// A run to be shown.
pub struct Run<'a> {
    model: &'a Model,
    /// The states of the objects that were there before it.
    start: &'a [u32],
    events: Vec<Event>,
    /// What the number of a place is called, and the first one.
    pub heading: String,
    first: usize,
}

/// What a step does, in words: names of labels and objects.
pub struct Done {
    pub line: usize,
    pub who: String,
    pub sets: Vec<String>,
    pub clears: Vec<String>,
    pub then: String,
    pub stood: String,
}

/// A row: its place, and what a step does, or a sentence about the question or about helpers.
pub enum Row {
    Step(String, Done),
    Meeting(String, String),
    Folded(String, String),
}

/// The heads of the columns.
pub fn heads(heading: &str) -> [String; 7] {
    [
        heading.to_string(),
        runs::head_model(),
        runs::head_who(),
        runs::head_sets(),
        runs::head_clears(),
        runs::head_then(),
        runs::head_stood(),
    ]
}

/// The labels that a change sets and those that it clears, by names.
pub fn change(model: &Model, before: u32, after: u32) -> (Vec<String>, Vec<String>) {
    let names = |labels: u32| model.labels(labels).iter().map(|l| l.to_string()).collect();
    (names(after & !before), names(before & !after))
}

/// Labels, each with its sign.
pub fn signed(labels: &[String], sign: &str) -> String {
    labels.iter().map(|l| format!("{sign}{l}")).collect::<Vec<_>>().join(" ")
}

impl<'a> Run<'a> {
    /// The kept places of a hand-in's run, numbered by its lines, and whether it is kept.
    pub fn handed(model: &'a Model, handed: &Handed) -> (Run<'a>, Replay) {
        let (stood, replay) = calls::replay(&model.bytes, handed.run);
        let run = Run {
            model,
            start: &[],
            events: story::tell(model, &[], &handed.run[..stood.len()], &stood).0,
            heading: runs::head_line(),
            first: handed.first,
        };
        (run, replay)
    }

    /// A run that the analysis shows.
    pub fn analyzed(model: &'a Model, run: &[u32]) -> Run<'a> {
        let (stood, _) = calls::replay(&model.bytes, run);
        Run::counted(model, &[], run, &stood)
    }

    /// A run that is shown from objects in these states on.
    pub fn from(model: &'a Model, start: &'a [u32], run: &[u32]) -> Run<'a> {
        Run::counted(model, start, run, &calls::stood_by(&model.bytes, start, run))
    }

    /// A run whose places are counted from 1.
    fn counted(model: &'a Model, start: &'a [u32], run: &[u32], stood: &[u32]) -> Run<'a> {
        Run {
            model,
            start,
            events: story::tell(model, start, run, stood).0,
            heading: runs::head_place(),
            first: 1,
        }
    }

    /// An object by its number, and whether it was there before.
    fn object(&self, object: usize) -> String {
        if object < self.start.len() {
            runs::old_object(object)
        } else {
            runs::object(object)
        }
    }

    /// The object of variable j of a line or stage, and what it is.
    fn stands_for(&self, line: &[u8], stage: usize, j: usize, object: usize, state: u32) -> String {
        let name = calls::variable(line, stage, j).map(readable).unwrap_or_default();
        runs::stands_for(&name, &self.object(object), &self.model.state(state))
    }

    fn step(&self, step: &Step, states: &[u32]) -> Done {
        let line = self.model.line(step.line);
        let own = usize::from(!step.creates);
        let state = |object: usize| if object == step.object { step.before } else { states[object] };
        let stood: Vec<String> = (own..step.stood.len())
            .map(|j| self.stands_for(line, 0, j, step.stood[j], state(step.stood[j])))
            .collect();
        let (sets, clears) = change(self.model, step.before, step.after);
        Done {
            line: step.line,
            who: if step.creates {
                runs::new_object(step.object)
            } else {
                self.object(step.object)
            },
            sets,
            clears,
            then: self.model.state(step.after),
            stood: stood.join(", "),
        }
    }

    /// A meeting in words.
    fn meeting(&self, m: &Meeting, states: &[u32]) -> String {
        let line = self.model.line(self.model.question());
        let objects: Vec<String> = m
            .objects
            .iter()
            .enumerate()
            .map(|(j, &o)| self.stands_for(line, m.stage, j, o, states[o]))
            .collect();
        if objects.is_empty() {
            runs::stage_met(m.stage)
        } else {
            runs::stage_met_by(m.stage, &objects.join(", "))
        }
    }

    /// Objects by their numbers, and what each is.
    fn objects(&self, objects: &BTreeSet<usize>, states: &[u32]) -> String {
        const MOST: usize = 12;
        let mut shown: Vec<String> = objects.iter().take(MOST).map(|&o| runs::is(o, &self.model.state(states[o]))).collect();
        if objects.len() > MOST {
            shown.push(runs::and_more(objects.len() - MOST));
        }
        shown.join(", ")
    }

    /// Steps of helpers in one sentence.
    fn fold(&self, steps: &[&Step], states: &[u32]) -> String {
        let new = steps.iter().filter(|s| s.creates).count();
        let objects: BTreeSet<usize> = steps.iter().map(|s| s.object).collect();
        let what = match (new, objects.len()) {
            (0, 1) => runs::relabeled_one(),
            (0, n) => runs::relabeled(n),
            (1, 1) => runs::made_one(),
            (_, n) => runs::made(n),
        };
        format!("{what}: {}", self.objects(&objects, states))
    }

    /// The objects that meet a stage.
    fn actors(&self) -> BTreeSet<usize> {
        let mut actors = BTreeSet::new();
        for e in &self.events {
            if let Event::Meeting(m) = e {
                actors.extend(m.objects.iter().copied());
            }
        }
        actors
    }

    /// The rows; steps of objects that meet no stage are helpers' steps, and folded where many follow one another. Where no stage names an object, nothing is folded.
    pub fn rows(&self, all: bool) -> Vec<Row> {
        let actors = self.actors();
        let helper = |e: &Event| matches!(e, Event::Step(s) if !actors.contains(&s.object));
        let mut states = self.start.to_vec();
        let mut rows = Vec::new();
        let mut i = 0;
        while i < self.events.len() {
            let end = i + self.events[i..].iter().take_while(|e| helper(e)).count();
            if !all && !actors.is_empty() && end - i >= FOLDED {
                let steps: Vec<&Step> = self.events[i..end]
                    .iter()
                    .filter_map(|e| if let Event::Step(s) = e { Some(s) } else { None })
                    .collect();
                steps.iter().for_each(|s| take(s, &mut states));
                rows.push(Row::Folded(runs::from_to(self.first + i, self.first + end - 1), self.fold(&steps, &states)));
                i = end;
                continue;
            }
            let place = (self.first + i).to_string();
            match &self.events[i] {
                Event::Step(s) => {
                    rows.push(Row::Step(place, self.step(s, &states)));
                    take(s, &mut states);
                }
                Event::Meeting(m) => rows.push(Row::Meeting(place, self.meeting(m, &states))),
            }
            i += 1;
        }
        rows
    }
}

/// Does a step's work on the objects' states.
fn take(step: &Step, states: &mut Vec<u32>) {
    if step.creates {
        states.push(step.after);
    } else {
        states[step.object] = step.after;
    }
}
