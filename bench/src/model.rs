//! Accepted texts as the stock engine's program needs them: with names, literals and clauses.

/// A row of the declared relations.
#[derive(Clone, Copy, PartialEq)]
pub enum Kind {
    State(usize),
    Derived(usize, usize),
}

/// A literal: its relation, whether it stands under `not`, its variables.
pub struct Literal {
    pub kind: Kind,
    pub negated: bool,
    pub variables: Vec<usize>,
}

/// What a clause does.
pub enum Action {
    Rule(usize, usize),
    New(u32),
    Next(u32, u32),
}

/// A clause with its line and its body.
pub struct Clause {
    pub line: u32,
    pub action: Action,
    pub body: Vec<Literal>,
}

/// A stage, and the numbers that its variables have in the `ask` line.
pub struct Stage {
    pub body: Vec<Literal>,
    pub variables: Vec<usize>,
}

/// An accepted text.
pub struct Model {
    pub names: Vec<(String, Kind)>,
    pub clauses: Vec<Clause>,
    pub stages: Vec<Stage>,
    /// The variables that stand in two or more stages, in order of first appearance.
    pub carried: Vec<usize>,
}

/// A form of the text: a word, or forms in brackets.
enum Form {
    Word(String),
    List(Vec<Form>),
}

fn form(line: &[u8], at: &mut usize) -> Form {
    if line[*at] != b'(' {
        let from = *at;
        while *at < line.len() && line[*at].is_ascii_alphanumeric() {
            *at += 1;
        }
        return Form::Word(String::from_utf8_lossy(&line[from..*at]).into_owned());
    }
    *at += 1;
    let mut items = Vec::new();
    while line[*at] != b')' {
        if line[*at] == b' ' {
            *at += 1;
        }
        items.push(form(line, at));
    }
    *at += 1;
    Form::List(items)
}

impl Form {
    fn word(&self) -> &str {
        match self {
            Form::Word(w) => w,
            Form::List(_) => panic!("a word was expected"),
        }
    }
    fn items(&self) -> &[Form] {
        match self {
            Form::Word(_) => panic!("a bracket was expected"),
            Form::List(items) => items,
        }
    }
}

/// The number of a variable, in order of first appearance.
fn number(scope: &mut Vec<String>, name: &str) -> usize {
    if let Some(i) = scope.iter().position(|v| v == name) {
        return i;
    }
    scope.push(name.to_string());
    scope.len() - 1
}

fn kind(names: &[(String, Kind)], name: &str) -> Kind {
    names.iter().find(|n| n.0 == name).expect("a declared name").1
}

fn literal(names: &[(String, Kind)], scope: &mut Vec<String>, f: &Form) -> Literal {
    let items = f.items();
    if items[0].word() == "not" {
        let plain = literal(names, scope, &items[1]);
        return Literal { negated: true, ..plain };
    }
    Literal {
        kind: kind(names, items[0].word()),
        negated: false,
        variables: items[1..].iter().map(|v| number(scope, v.word())).collect(),
    }
}

fn body(names: &[(String, Kind)], scope: &mut Vec<String>, forms: &[Form]) -> Vec<Literal> {
    forms.iter().map(|f| literal(names, scope, f)).collect()
}

fn set(names: &[(String, Kind)], f: &Form) -> u32 {
    f.items().iter().fold(0, |s, n| match kind(names, n.word()) {
        Kind::State(r) => s | 1 << r,
        Kind::Derived(..) => panic!("a state relation was expected"),
    })
}

/// Reads an accepted text.
pub fn read(text: &[u8]) -> Model {
    let mut m = Model {
        names: Vec::new(),
        clauses: Vec::new(),
        stages: Vec::new(),
        carried: Vec::new(),
    };
    let (mut states, mut relations, mut line) = (0, 0, 0);
    for bytes in text.split(|&b| b == b'\n').filter(|l| !l.is_empty()) {
        line += 1;
        let f = form(bytes, &mut 0);
        let items = f.items();
        let mut scope = Vec::new();
        let (action, rest) = match items[0].word() {
            "state" => {
                m.names.push((items[1].word().to_string(), Kind::State(states)));
                states += 1;
                continue;
            }
            "rel" => {
                let arity = items[2].word().parse().expect("an arity");
                m.names.push((items[1].word().to_string(), Kind::Derived(relations, arity)));
                relations += 1;
                continue;
            }
            "ask" => {
                let mut all: Vec<String> = Vec::new();
                for stage in &items[1..] {
                    let mut own = Vec::new();
                    let body = body(&m.names, &mut own, stage.items());
                    let variables: Vec<usize> = own.iter().map(|v| number(&mut all, v)).collect();
                    m.stages.push(Stage { body, variables });
                }
                let stands = |v: &usize| m.stages.iter().filter(|s| s.variables.contains(v)).count();
                m.carried = (0..all.len()).filter(|v| stands(v) > 1).collect();
                continue;
            }
            "rule" => {
                let head = literal(&m.names, &mut scope, &items[1]);
                let Kind::Derived(relation, arity) = head.kind else {
                    panic!("a derived relation was expected")
                };
                (Action::Rule(relation, arity), 2)
            }
            "new" => (Action::New(set(&m.names, &items[1])), 2),
            "next" => {
                number(&mut scope, items[1].word());
                (Action::Next(set(&m.names, &items[2]), set(&m.names, &items[3])), 4)
            }
            other => panic!("no form begins with {other}"),
        };
        let body = body(&m.names, &mut scope, &items[rest..]);
        m.clauses.push(Clause { line, action, body });
    }
    m
}
