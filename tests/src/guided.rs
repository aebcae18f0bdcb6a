//! Questions drawn from a random walk, so that a run meets them, and near misses of such questions.

use crate::guess::pair;
use crate::meaning::{Carried, Facts, Model};
use crate::random::{self, Random, Shape, CARRIED};
use crate::reader::{self, Kind, Outcome, Text};
use std::collections::BTreeSet;

/// A walk through the databases of a model, and the carried objects.
struct Walk<'a> {
    text: &'a Text,
    m: &'a Model,
    db: Vec<u32>,
    carried: Carried,
}

/// A variable and the object that it stands for.
type Named = (String, usize);

impl<'a> Walk<'a> {
    /// A walk that has not begun.
    fn new(text: &'a Text, m: &'a Model) -> Walk<'a> {
        Walk { text, m, db: Vec::new(), carried: Carried::default() }
    }

    /// Plays some guessed pairs.
    fn go_on(&mut self, r: &mut Random, pairs: usize) {
        for _ in 0..pairs {
            let (line, object) = pair(r, self.m, self.db.len());
            if let Some(after) = self.m.step(&self.db, &self.m.facts(&self.db), line, object) {
                self.db = after;
            }
        }
    }

    /// The databases in which an object is changed and not wiped by one line.
    fn changes(&self, object: usize) -> Vec<Vec<u32>> {
        let facts = self.m.facts(&self.db);
        let after = self.m.clauses.iter().filter_map(|c| self.m.step(&self.db, &facts, c.line, object));
        after.filter(|db| db.len() == self.db.len() && db[object] != self.db[object] && db[object] != 0).collect()
    }

    /// Relabels a carried object, if a line changes it.
    fn move_carried(&mut self, r: &mut Random) {
        let carried: Vec<usize> = self.carried.iter().copied().flatten().collect();
        let mut after = if carried.is_empty() { Vec::new() } else { self.changes(r.pick(&carried)) };
        if !after.is_empty() {
            self.db = after.swap_remove(r.below(after.len()));
        }
    }

    /// The object to carry, one that can change if there is one.
    fn to_carry(&self, r: &mut Random, objects: &[usize]) -> usize {
        let lively: Vec<usize> = objects.iter().copied().filter(|o| !self.changes(*o).is_empty()).collect();
        r.pick(if lively.is_empty() { objects } else { &lively })
    }

    /// The declared names of a kind, in order.
    fn declared(&self, states: bool) -> impl Iterator<Item = &(String, Kind)> {
        self.text.declared.iter().filter(move |d| (d.1 == Kind::State) == states)
    }

    /// The literals on states that hold now, those under `not` apart.
    fn state_literals(&self, named: &[Named]) -> (Vec<String>, Vec<String>) {
        let (mut plain, mut negated) = (Vec::new(), Vec::new());
        for (i, (name, _)) in self.declared(true).enumerate() {
            for (v, o) in named {
                match self.db[*o] >> i & 1 {
                    1 => plain.push(format!("({name} {v})")),
                    _ => negated.push(format!("(not ({name} {v}))")),
                }
            }
        }
        (plain, negated)
    }

    /// The literals on derived relations that hold now.
    fn fact_literals(&self, facts: &Facts, named: &[Named]) -> Vec<String> {
        let mut all = Vec::new();
        for (i, (name, kind)) in self.declared(false).enumerate() {
            match kind {
                Kind::Derived(0) if facts.has(i, &[]) => all.push(format!("({name})")),
                Kind::Derived(1) => all.extend(named.iter().filter(|(_, o)| facts.has(i, &[*o])).map(|(v, _)| format!("({name} {v})"))),
                Kind::Derived(2) => {
                    let pairs = named.iter().flat_map(|a| named.iter().map(move |b| (a, b)));
                    all.extend(pairs.filter(|(a, b)| facts.has(i, &[a.1, b.1])).map(|(a, b)| format!("({name} {} {})", a.0, b.0)))
                }
                _ => {}
            }
        }
        all
    }

    /// Some objects that are not wiped, each with a variable, and these carried ones.
    fn named(&mut self, r: &mut Random, number: usize, carry: &[usize]) -> Vec<Named> {
        let objects: Vec<usize> = (0..self.db.len()).filter(|o| self.db[*o] != 0).collect();
        let mut named = Vec::new();
        if objects.is_empty() {
            return named;
        }
        for letter in &["a", "b"][..r.below(3.min(4 - carry.len()))] {
            named.push((format!("{letter}{number}"), r.pick(&objects)));
        }
        for c in carry {
            let object = self.carried[*c].unwrap_or_else(|| self.to_carry(r, &objects));
            self.carried[*c] = Some(object);
            if self.db[object] != 0 {
                named.insert(r.below(named.len() + 1), (CARRIED[*c].into(), object));
            }
        }
        named
    }

    /// Says of a carried object, if it is named, all that is true of it.
    fn describe_carried(&self, named: &[Named], carried: usize, body: &mut Vec<String>) {
        let carried: Vec<Named> = named.iter().filter(|(v, _)| v == CARRIED[carried]).cloned().collect();
        let (plain, negated) = self.state_literals(&carried);
        body.extend(plain.into_iter().chain(negated));
        body.sort();
        body.dedup();
    }

    /// A stage of literals that hold now.
    fn stage(&mut self, r: &mut Random, number: usize, carry: &[usize]) -> Option<String> {
        let named = self.named(r, number, carry);
        let (mut plain, mut negated) = self.state_literals(&named);
        plain.extend(self.fact_literals(&self.m.facts(&self.db), &named));
        r.shuffle(&mut plain);
        r.shuffle(&mut negated);
        let mut body: Vec<String> = Vec::new();
        let mut extra = r.below(2);
        for literal in plain {
            let needed = named.iter().any(|(v, _)| has_variable(&literal, v) && !body.iter().any(|l| has_variable(l, v)));
            if needed || extra > 0 {
                extra -= if needed { 0 } else { 1 };
                body.push(literal);
            }
        }
        body.extend(negated.into_iter().take(r.below(3)));
        for c in carry {
            if r.chance(85) {
                self.describe_carried(&named, *c, &mut body);
            }
        }
        (!body.is_empty() && body.len() <= 8).then(|| format!("({})", body.join(" ")))
    }

    /// A stage that says something of what is true now of one object that is not wiped, and has no other variable.
    fn stage_of_one(&self, r: &mut Random) -> Option<String> {
        let objects: Vec<usize> = (0..self.db.len()).filter(|o| self.db[*o] != 0).collect();
        let named = [("x".to_string(), *objects.get(r.below(objects.len().max(1)))?)];
        let (mut plain, mut negated) = self.state_literals(&named);
        let mut others = self.fact_literals(&self.m.facts(&self.db), &named);
        for literals in [&mut plain, &mut negated, &mut others] {
            r.shuffle(literals);
        }
        plain.truncate(1 + r.below(3));
        negated.truncate(r.below(4));
        others.truncate(r.below(3));
        Some(format!("({})", [plain, negated, others].concat().join(" ")))
    }
}

fn has_variable(literal: &str, variable: &str) -> bool {
    literal.contains(&format!(" {variable})")) || literal.contains(&format!(" {variable} "))
}

/// A stage with the two carried variables changed for each other.
fn crossed(stage: &str) -> String {
    let other = |c: char| CARRIED.iter().position(|v| c.to_string() == *v).map(|i| CARRIED[1 - i]);
    let mut out = String::new();
    for (i, c) in stage.char_indices() {
        let alone = stage[..i].ends_with(' ') && stage[i + 1..].starts_with([' ', ')']);
        match other(c).filter(|_| alone) {
            Some(v) => out += v,
            None => out.push(c),
        }
    }
    out
}

/// Changes two stages for each other, drops a `not`, puts one variable for another, or changes the carried ones for each other in a stage.
fn near_miss(r: &mut Random, stages: &mut [String]) {
    if stages.len() > 1 && r.chance(50) {
        let i = r.below(stages.len() - 1);
        stages.swap(i, i + 1);
        return;
    }
    let i = r.below(stages.len());
    stages[i] = match r.below(5) {
        0 => stages[i].replacen("(not (", "(", 1).replacen("))", ")", 1),
        1 => stages[i].replace('b', "a"),
        2..=3 => crossed(&stages[i]),
        _ => stages[i].replacen('a', "b", 1),
    };
}

/// A text whose lines before the question are those of an accepted text.
fn with_question(text: &str, stages: &[String]) -> String {
    let question = text.rfind("(ask ").unwrap();
    format!("{}(ask {})\n", &text[..question], stages.join(" "))
}

fn is_accepted(text: &str) -> bool {
    matches!(reader::read(text.as_bytes()), Outcome::Accepted(_))
}

/// Whether a walk meets several atomic states.
fn is_lively(r: &mut Random, text: &Text, m: &Model) -> bool {
    let mut walk = Walk::new(text, m);
    let mut states = BTreeSet::new();
    for _ in 0..16 {
        walk.go_on(r, 1);
        states.extend(walk.db.iter().copied());
    }
    states.len() > m.states.min(2)
}

/// The stages that a walk meets.
fn stages(r: &mut Random, text: &Text, m: &Model) -> Vec<String> {
    let mut walk = Walk::new(text, m);
    let carries = r.pick(&[0, 1, 1, 2, 2, 2, 2]);
    let mut stages = Vec::new();
    walk.go_on(r, 14);
    for number in 0..r.pick(&[1, 2, 3, 4]) {
        let carry: Vec<usize> = (0..carries).filter(|_| r.chance(90)).collect();
        stages.extend(walk.stage(r, number, &carry));
        let pairs = r.below(3);
        walk.go_on(r, pairs);
        for _ in 0..r.pick(&[0, 1, 1, 2]) {
            walk.move_carried(r);
        }
    }
    stages
}

/// An accepted text with a question that a run meets or nearly meets in place of its own.
pub fn asking(r: &mut Random, text: &str) -> String {
    let Outcome::Accepted(read) = reader::read(text.as_bytes()) else { return text.into() };
    let met = stages(r, &read, &Model::new(&read));
    asked(r, text, met)
}

/// An accepted text with a question of one stage and one variable in its place, which a run meets or nearly meets.
pub fn asking_of_one(r: &mut Random, text: &str) -> String {
    let Outcome::Accepted(read) = reader::read(text.as_bytes()) else { return text.into() };
    let m = Model::new(&read);
    let mut walk = Walk::new(&read, &m);
    walk.go_on(r, 14);
    let met = walk.stage_of_one(r).into_iter().collect();
    asked(r, text, met)
}

/// A random model with a question that a run meets or nearly meets; of a few models the first whose objects change.
pub fn model(r: &mut Random, shape: Shape) -> String {
    let mut text = random::model(r, shape);
    for _ in 0..20 {
        let Outcome::Accepted(read) = reader::read(text.as_bytes()) else { return text };
        let m = Model::new(&read);
        if is_lively(r, &read, &m) {
            let met = stages(r, &read, &m);
            return asked(r, &text, met);
        }
        text = random::model(r, shape);
    }
    text
}

/// The text with a question of these stages, or of nearly these; with its own if there are none.
fn asked(r: &mut Random, text: &str, mut stages: Vec<String>) -> String {
    if stages.is_empty() {
        return text.into();
    }
    let met = with_question(text, &stages);
    if r.chance(45) {
        near_miss(r, &mut stages);
    }
    let missed = with_question(text, &stages);
    if is_accepted(&missed) {
        missed
    } else {
        met
    }
}
