//! A plain reader of the bracket text, written from document 01 alone: a line becomes a tree of words and brackets, and the tree is held to the shapes.

use std::collections::{HashMap, HashSet};

/// The most variables that a question carries: document 02, R-5.
pub const CARRIED: usize = 2;
/// The most state relations, and the most names of a list: document 02, R-6.
pub const LABELS: usize = 24;

/// A word, or a bracket of items.
#[derive(Clone, Debug, PartialEq)]
enum Tree {
    Word(String),
    Bracket(Vec<Tree>),
}

#[derive(Clone, Debug, PartialEq)]
pub struct Literal {
    pub negated: bool,
    pub name: String,
    pub variables: Vec<String>,
}

#[derive(Clone, Debug)]
pub enum Form {
    State(String),
    Rel(String, usize),
    Rule(Literal, Vec<Literal>),
    New(Vec<String>, Vec<Literal>),
    Next(String, Vec<String>, Vec<String>, Vec<Literal>),
    Ask(Vec<Vec<Literal>>),
}

#[derive(Clone, Copy, Debug, PartialEq)]
pub enum Kind {
    State,
    Derived(usize),
}

/// An accepted text: its declarations in order, its clauses with their line numbers, its stages.
#[derive(Clone, Debug)]
pub struct Text {
    pub declared: Vec<(String, Kind)>,
    pub clauses: Vec<(u32, Form)>,
    pub stages: Vec<Vec<Literal>>,
}

#[derive(Clone, Debug)]
pub enum Outcome {
    Accepted(Text),
    Refused(u32, u32),
}

/// Reads one tree from the front of a line, and gives it with what is left.
fn tree(line: &[u8]) -> Option<(Tree, &[u8])> {
    if line.first() == Some(&b'(') {
        let mut items = Vec::new();
        let mut rest = &line[1..];
        if rest.first() == Some(&b')') {
            return Some((Tree::Bracket(items), &rest[1..]));
        }
        loop {
            let (item, after) = tree(rest)?;
            items.push(item);
            match after.first() {
                Some(b')') => return Some((Tree::Bracket(items), &after[1..])),
                Some(b' ') => rest = &after[1..],
                _ => return None,
            }
        }
    }
    let n = line.iter().take_while(|b| b.is_ascii_alphanumeric()).count();
    if n == 0 {
        return None;
    }
    Some((Tree::Word(String::from_utf8(line[..n].to_vec()).unwrap()), &line[n..]))
}

fn name(t: &Tree) -> Option<String> {
    let Tree::Word(w) = t else { return None };
    let good = w.len() <= 16 && w.as_bytes()[0].is_ascii_alphabetic() && w != "not";
    good.then(|| w.clone())
}

fn names(t: &Tree, most: usize) -> Option<Vec<String>> {
    let Tree::Bracket(items) = t else { return None };
    if items.len() > most {
        return None;
    }
    items.iter().map(name).collect()
}

fn atom(t: &Tree) -> Option<Literal> {
    let Tree::Bracket(items) = t else { return None };
    let (first, others) = items.split_first()?;
    Some(Literal { negated: false, name: name(first)?, variables: others.iter().map(name).collect::<Option<_>>()? })
}

fn literal(t: &Tree) -> Option<Literal> {
    if let Tree::Bracket(items) = t {
        if items.len() == 2 && items[0] == Tree::Word("not".into()) {
            let inner = atom(&items[1])?;
            return Some(Literal { negated: true, ..inner });
        }
    }
    atom(t)
}

fn body(items: &[Tree], least: usize) -> Option<Vec<Literal>> {
    if items.len() < least || items.len() > 8 {
        return None;
    }
    items.iter().map(literal).collect()
}

fn stage(t: &Tree) -> Option<Vec<Literal>> {
    let Tree::Bracket(items) = t else { return None };
    body(items, 1)
}

/// The form that a line is, if it has one of the shapes.
pub fn form(line: &[u8]) -> Option<Form> {
    let (t, rest) = tree(line)?;
    let Tree::Bracket(items) = t else { return None };
    if !rest.is_empty() {
        return None;
    }
    let Tree::Word(first) = items.first()? else { return None };
    let rest = &items[1..];
    match (first.as_str(), rest.len()) {
        ("state", 1) => Some(Form::State(name(&rest[0])?)),
        ("rel", 2) => {
            let Tree::Word(n) = &rest[1] else { return None };
            let arity = ["0", "1", "2"].iter().position(|d| d == n)?;
            Some(Form::Rel(name(&rest[0])?, arity))
        }
        ("rule", 1..) => Some(Form::Rule(atom(&rest[0])?, body(&rest[1..], 0)?)),
        ("new", 1..) => Some(Form::New(names(&rest[0], LABELS)?, body(&rest[1..], 0)?)),
        ("next", 3..) => Some(Form::Next(name(&rest[0])?, names(&rest[1], LABELS)?, names(&rest[2], LABELS)?, body(&rest[3..], 0)?)),
        ("ask", 1..=4) => Some(Form::Ask(rest.iter().map(stage).collect::<Option<_>>()?)),
        _ => None,
    }
}

/// What was read before a line.
#[derive(Default)]
struct Before {
    declared: Vec<(String, Kind)>,
    clauses: Vec<(u32, Form)>,
}

impl Before {
    fn kind(&self, name: &str) -> Option<Kind> {
        self.declared.iter().find(|d| d.0 == name).map(|d| d.1)
    }

    fn count(&self, f: impl Fn(Kind) -> bool) -> usize {
        self.declared.iter().filter(|d| f(d.1)).count()
    }

    /// The rows that a list of names meets.
    fn list(&self, l: &[String], rows: &mut Vec<u32>) {
        for n in l {
            if self.kind(n) != Some(Kind::State) {
                rows.push(6);
            }
        }
    }

    /// The rows that a literal or a head meets.
    fn literal(&self, l: &Literal, head: bool, rows: &mut Vec<u32>) {
        match self.kind(&l.name) {
            None => rows.push(6),
            Some(Kind::State) => {
                if head {
                    rows.push(6);
                }
                if l.variables.len() != 1 {
                    rows.push(7);
                }
            }
            Some(Kind::Derived(n)) => {
                if l.variables.len() != n {
                    rows.push(7);
                }
                if l.negated {
                    rows.push(8);
                }
            }
        }
    }

    /// Row 9 of a body with the variables of its head.
    fn variables(head: &[String], body: &[Literal], rows: &mut Vec<u32>) {
        let mut plain: HashMap<&str, bool> = HashMap::new();
        for v in head {
            plain.entry(v).or_insert(false);
        }
        for l in body {
            for v in &l.variables {
                let seen = plain.entry(v).or_insert(false);
                *seen |= !l.negated;
            }
        }
        if plain.len() > 3 || plain.values().any(|p| !p) {
            rows.push(9);
        }
    }

    /// The rows that a declaration meets.
    fn declaration(&self, name: &str, full: bool, rows: &mut Vec<u32>) {
        if full {
            rows.push(4);
        }
        if self.kind(name).is_some() {
            rows.push(5);
        }
    }

    /// The rows that the stages of a question meet.
    fn question(&self, stages: &[Vec<Literal>], rows: &mut Vec<u32>) {
        let mut stands: HashMap<&str, usize> = HashMap::new();
        for stage in stages {
            for l in stage {
                self.literal(l, false, rows);
            }
            Before::variables(&[], stage, rows);
            let here: HashSet<&str> = stage.iter().flat_map(|l| l.variables.iter().map(|v| v.as_str())).collect();
            for v in here {
                *stands.entry(v).or_insert(0) += 1;
            }
        }
        if stands.values().filter(|n| **n >= 2).count() > CARRIED {
            rows.push(11);
        }
    }

    /// All rows from 4 on that a form meets.
    fn rows(&self, f: &Form) -> Vec<u32> {
        let mut rows = Vec::new();
        let pairs = self.count(|k| k == Kind::Derived(2));
        match f {
            Form::State(w) => self.declaration(w, self.count(|k| k == Kind::State) >= LABELS, &mut rows),
            Form::Rel(w, n) => self.declaration(w, self.count(|k| k != Kind::State) >= 16 || *n == 2 && pairs >= 6, &mut rows),
            Form::Rule(head, body) => {
                self.literal(head, true, &mut rows);
                if (1..head.variables.len()).any(|i| head.variables[..i].contains(&head.variables[i])) {
                    rows.push(9);
                }
                self.clause(&head.variables, body, &mut rows);
            }
            Form::New(l, body) => {
                self.list(l, &mut rows);
                self.clause(&[], body, &mut rows);
            }
            Form::Next(x, plus, minus, body) => {
                self.list(plus, &mut rows);
                self.list(minus, &mut rows);
                self.clause(&[x.clone()], body, &mut rows);
            }
            Form::Ask(stages) => self.question(stages, &mut rows),
        }
        rows
    }

    /// What a rule, a `new` and a `next` line have in common.
    fn clause(&self, head: &[String], body: &[Literal], rows: &mut Vec<u32>) {
        if self.clauses.len() >= 64 {
            rows.push(4);
        }
        for l in body {
            self.literal(l, false, rows);
        }
        Before::variables(head, body, rows);
    }
}

/// The outcome of a text.
pub fn read(text: &[u8]) -> Outcome {
    if text.is_empty() || text.len() > 16_384 {
        return Outcome::Refused(1, 0);
    }
    let mut before = Before::default();
    let mut stages = None;
    let mut number = 0;
    for piece in text.split_inclusive(|b| *b == 10) {
        number += 1;
        if stages.is_some() {
            return Outcome::Refused(10, number);
        }
        let Some(line) = piece.strip_suffix(b"\n") else { return Outcome::Refused(2, number) };
        if line.iter().any(|b| !(b.is_ascii_alphanumeric() || b" ()".contains(b))) {
            return Outcome::Refused(2, number);
        }
        let Some(f) = form(line) else { return Outcome::Refused(3, number) };
        if let Some(row) = before.rows(&f).into_iter().min() {
            return Outcome::Refused(row, number);
        }
        match f {
            Form::State(w) => before.declared.push((w, Kind::State)),
            Form::Rel(w, n) => before.declared.push((w, Kind::Derived(n))),
            Form::Ask(s) => stages = Some(s),
            clause => before.clauses.push((number, clause)),
        }
    }
    match stages {
        None => Outcome::Refused(10, number + 1),
        Some(stages) => Outcome::Accepted(Text { declared: before.declared, clauses: before.clauses, stages }),
    }
}
