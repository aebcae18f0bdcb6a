//! The texts in the Datalog form of the EON paper's section 4, for a stock engine.

use crate::model::{Action, Kind, Literal, Model};
use std::fmt::Write;

/// How an object's atomic state is spelled: as the vector of section 4, or as one number, which is easier for an engine.
#[derive(Clone, Copy, PartialEq)]
pub enum Spelling {
    Vector,
    Number,
}

/// The variables of a body, and those of carried objects that the body does not speak of.
const VARIABLES: [&str; 5] = ["X", "Y", "Z", "U", "V"];
/// Where those of carried objects begin.
const OTHERS: usize = 3;

/// A spelling of so many labels.
#[derive(Clone, Copy)]
struct Form {
    spelling: Spelling,
    labels: usize,
}

impl Form {
    /// The terms of a variable.
    fn terms(self, v: usize) -> String {
        match self.spelling {
            Spelling::Vector => (0..self.labels).map(|i| format!("{}{i}", VARIABLES[v])).collect::<Vec<_>>().join(","),
            Spelling::Number => VARIABLES[v].to_string(),
        }
    }

    /// The terms of a set of state relations.
    fn set(self, set: u32) -> String {
        match self.spelling {
            Spelling::Vector => (0..self.labels).map(|i| (set >> i & 1).to_string()).collect::<Vec<_>>().join(","),
            Spelling::Number => set.to_string(),
        }
    }

    /// The terms of variable 0 after a step, and what else the body needs.
    fn after(self, plus: u32, minus: u32) -> (String, String) {
        match self.spelling {
            Spelling::Vector => {
                let term = |i: usize| match (plus >> i & 1, minus >> i & 1) {
                    (_, 1) => "0".to_string(),
                    (1, _) => "1".to_string(),
                    _ => format!("X{i}"),
                };
                ((0..self.labels).map(term).collect::<Vec<_>>().join(","), String::new())
            }
            Spelling::Number => ("W".to_string(), format!(", W = (X ? {plus}) & {}, W != 0", ((1 << self.labels) - 1) & !minus)),
        }
    }

    fn literal(self, l: &Literal) -> String {
        match (l.kind, self.spelling) {
            (Kind::State(i), Spelling::Vector) => format!("{}({}{i})", if l.negated { "false" } else { "true" }, VARIABLES[l.variables[0]]),
            (Kind::State(i), Spelling::Number) => format!("{}{i}({})", if l.negated { "n" } else { "s" }, VARIABLES[l.variables[0]]),
            (Kind::Derived(r, _), _) => self.atom(r, &l.variables),
        }
    }

    fn atom(self, relation: usize, variables: &[usize]) -> String {
        match variables {
            [] => format!("r{relation}"),
            some => format!("r{relation}({})", some.iter().map(|&v| self.terms(v)).collect::<Vec<_>>().join(",")),
        }
    }

    /// A body: its literals, and a reachable state for each variable that needs one.
    fn body(self, body: &[Literal]) -> String {
        let mut out = vec!["reach0".to_string()];
        let mut bound = Vec::new();
        for l in body {
            if matches!(l.kind, Kind::State(_)) && !bound.contains(&l.variables[0]) {
                bound.push(l.variables[0]);
                out.push(format!("reach({})", self.terms(l.variables[0])));
            }
        }
        out.extend(body.iter().map(|l| self.literal(l)));
        out.join(", ")
    }
}

/// The atom of a level: so many stages are met, and these are the terms of the carried objects that are chosen.
fn level(s: Form, met: usize, chosen: &[usize]) -> String {
    let terms: Vec<String> = chosen.iter().map(|&v| s.terms(v)).collect();
    match terms.is_empty() {
        true => format!("level{met}"),
        false => format!("level{met}({})", terms.join(",")),
    }
}

/// The carried variables that are chosen when so many stages are met, by their numbers among the carried ones.
fn chosen(m: &Model, met: usize) -> Vec<usize> {
    let stands = |c: &usize| m.stages[..met].iter().any(|s| s.variables.contains(&m.carried[*c]));
    (0..m.carried.len()).filter(stands).collect()
}

/// The rules by which a `next` line changes each carried object of each level, the others staying what they are.
fn walks(t: &mut String, m: &Model, s: Form, line: u32, after: &str, more: &str) {
    for met in 0..m.stages.len() {
        let carried = chosen(m, met);
        for walker in 0..carried.len() {
            let before: Vec<usize> = (0..carried.len()).map(|i| if i == walker { 0 } else { OTHERS + i }).collect();
            let head: Vec<String> = before.iter().map(|&v| if v == 0 { after.to_string() } else { s.terms(v) }).collect();
            let (head, from) = (head.join(","), level(s, met, &before));
            writeln!(t, "level{met}({head}) :- {from}, can{line}({}){more}.", s.terms(0)).unwrap();
        }
    }
}

/// The rule by which a stage leads from a level to the next: the pair that met the stages before is the pair that meets this one.
fn meeting(t: &mut String, m: &Model, s: Form, met: usize) {
    let stage = &m.stages[met];
    let seat = |c: &usize| stage.variables.iter().position(|&v| v == m.carried[*c]).unwrap_or(OTHERS + c);
    let [before, after] = [met, met + 1].map(|k| chosen(m, k).iter().map(seat).collect::<Vec<usize>>());
    writeln!(t, "{} :- {}, {}.", level(s, met + 1, &after), level(s, met, &before), s.body(&stage.body)).unwrap();
}

/// The facts, or for more states than seven labels make the rules, that say which labels a number has.
fn numbers(t: &mut String, labels: usize) {
    for i in 0..labels {
        if labels > 7 {
            let bit = 1 << i;
            writeln!(t, "s{i}(X) :- reach(X), X & {bit} != 0.\nn{i}(X) :- reach(X), X & {bit} == 0.").unwrap();
            continue;
        }
        for n in 1..1 << labels {
            writeln!(t, "{}{i}({n}).", if n >> i & 1 == 1 { "s" } else { "n" }).unwrap();
        }
    }
}

/// The Datalog program of a model, with an atom for each level of the question and the states of the carried objects.
pub fn program(m: &Model, spelling: Spelling) -> String {
    let labels = m.names.iter().filter(|n| matches!(n.1, Kind::State(_))).count();
    let s = Form { spelling, labels };
    let mut t = String::from("reach0.\ntrue(1).\nfalse(0).\n");
    if spelling == Spelling::Number {
        numbers(&mut t, labels);
    }
    for c in &m.clauses {
        let body = s.body(&c.body);
        match c.action {
            Action::Rule(r, arity) => {
                let head: Vec<usize> = (0..arity).collect();
                writeln!(t, "{} :- {body}.", s.atom(r, &head)).unwrap();
            }
            Action::New(set) if set != 0 => writeln!(t, "reach({}) :- {body}.", s.set(set)).unwrap(),
            Action::New(_) => {}
            Action::Next(plus, minus) => {
                let (after, more) = s.after(plus, minus);
                writeln!(t, "can{}({}) :- {body}.", c.line, s.terms(0)).unwrap();
                writeln!(t, "reach({after}) :- can{}({}){more}.", c.line, s.terms(0)).unwrap();
                walks(&mut t, m, s, c.line, &after, &more);
            }
        }
    }
    t.push_str("level0.\n");
    for met in 0..m.stages.len() {
        meeting(&mut t, m, s, met);
    }
    let last = m.stages.len();
    let some: Vec<usize> = (0..chosen(m, last).len()).collect();
    let labels = if spelling == Spelling::Vector { labels } else { 1 };
    writeln!(t, "reached :- {}.\n#show reached/0.\n#show reach/{labels}.", level(s, last, &some)).unwrap();
    t
}
