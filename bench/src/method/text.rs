//! A quick reader of accepted texts. Up to 24 labels and two carried variables; the shape and the rows are not judged.

pub const LABELS: usize = 24;

/// A body with its literals sorted by what they bind; a literal that comes twice is kept once.
#[derive(Clone, Copy, Default)]
pub struct Body {
    pub vars: usize,
    /// Labels that the state of a variable must have, and must not have.
    pub with: [u32; 3],
    pub without: [u32; 3],
    /// Single derived relations of a variable, pair relations with itself, and the nullary ones.
    pub one: [u16; 3],
    pub own: [u8; 3],
    pub nul: u16,
    /// two[v][w]: the pair relations R with a literal (R v w), v and w being different.
    pub two: [[u8; 3]; 3],
}

impl Body {
    /// The same body with variable v called p[v].
    pub fn renamed(&self, p: [usize; 3]) -> Body {
        let mut b = Body {
            vars: self.vars,
            nul: self.nul,
            ..Body::default()
        };
        for v in 0..self.vars {
            b.with[p[v]] = self.with[v];
            b.without[p[v]] = self.without[v];
            b.one[p[v]] = self.one[v];
            b.own[p[v]] = self.own[v];
            for w in 0..self.vars {
                b.two[p[v]][p[w]] = self.two[v][w];
            }
        }
        b
    }
    pub fn derived(&self) -> bool {
        self.nul != 0 || (0..3).any(|v| self.one[v] != 0 || self.own[v] != 0 || self.two[v].iter().any(|&m| m != 0))
    }
}

#[derive(Clone, Copy)]
pub enum Act {
    Rule { arity: usize, rel: usize },
    New { set: u32 },
    Next { add: u32, sub: u32 },
}

#[derive(Clone, Copy)]
pub struct Clause {
    pub line: u32,
    pub act: Act,
    pub body: Body,
}

#[derive(Clone)]
pub struct Stage {
    pub body: Body,
    /// The stage's variable that is carried variable 0 or 1, or 255.
    pub seat: [usize; 2],
}

#[derive(Clone)]
pub struct Model {
    pub labels: Vec<String>,
    pub clauses: Vec<Clause>,
    pub stages: Vec<Stage>,
    pub carried: usize,
}

enum Form {
    Word(String),
    List(Vec<Form>),
}

fn form(s: &[u8], at: &mut usize) -> Form {
    if s[*at] != b'(' {
        let from = *at;
        while *at < s.len() && s[*at].is_ascii_alphanumeric() {
            *at += 1;
        }
        return Form::Word(String::from_utf8_lossy(&s[from..*at]).into_owned());
    }
    *at += 1;
    let mut items = Vec::new();
    while s[*at] != b')' {
        if s[*at] == b' ' {
            *at += 1;
        } else {
            items.push(form(s, at));
        }
    }
    *at += 1;
    Form::List(items)
}

impl Form {
    fn word(&self) -> &str {
        if let Form::Word(w) = self {
            w
        } else {
            panic!("a word was expected")
        }
    }
    fn list(&self) -> &[Form] {
        if let Form::List(l) = self {
            l
        } else {
            panic!("a bracket was expected")
        }
    }
}

#[derive(Clone, Copy)]
enum Kind {
    Label(usize),
    Rel(usize, usize),
}

fn seat(scope: &mut Vec<String>, v: &str) -> usize {
    scope.iter().position(|x| x == v).unwrap_or_else(|| {
        scope.push(v.to_string());
        scope.len() - 1
    })
}

fn body(names: &[(String, Kind)], scope: &mut Vec<String>, forms: &[Form]) -> Body {
    let mut b = Body::default();
    for f in forms {
        let (l, not) = if f.list()[0].word() == "not" {
            (f.list()[1].list(), true)
        } else {
            (f.list(), false)
        };
        let kind = names.iter().find(|n| n.0 == l[0].word()).expect("a declared name").1;
        let v: Vec<usize> = l[1..].iter().map(|x| seat(scope, x.word())).collect();
        match kind {
            Kind::Label(a) if not => b.without[v[0]] |= 1 << a,
            Kind::Label(a) => b.with[v[0]] |= 1 << a,
            Kind::Rel(r, 0) => b.nul |= 1 << r,
            Kind::Rel(r, 1) => b.one[v[0]] |= 1 << r,
            Kind::Rel(r, _) if v[0] == v[1] => b.own[v[0]] |= 1 << r,
            Kind::Rel(r, _) => b.two[v[0]][v[1]] |= 1 << r,
        }
    }
    b.vars = scope.len();
    b
}

/// Reads an accepted text.
pub fn read(text: &[u8]) -> Model {
    let mut m = Model {
        labels: Vec::new(),
        clauses: Vec::new(),
        stages: Vec::new(),
        carried: 0,
    };
    let mut names: Vec<(String, Kind)> = Vec::new();
    let mut rels = [0; 3];
    for (i, s) in text.split(|&b| b == b'\n').filter(|l| !l.is_empty()).enumerate() {
        let f = form(s, &mut 0);
        let it = f.list();
        let mut scope = Vec::new();
        let set = |names: &[(String, Kind)], f: &Form| {
            f.list().iter().fold(0u32, |s, n| match names.iter().find(|x| x.0 == n.word()).unwrap().1 {
                Kind::Label(a) => s | 1 << a,
                _ => panic!("a state relation was expected"),
            })
        };
        let (act, from) = match it[0].word() {
            "state" => {
                names.push((it[1].word().to_string(), Kind::Label(m.labels.len())));
                m.labels.push(it[1].word().to_string());
                continue;
            }
            "rel" => {
                let n: usize = it[2].word().parse().unwrap();
                names.push((it[1].word().to_string(), Kind::Rel(rels[n], n)));
                rels[n] += 1;
                continue;
            }
            "ask" => {
                let mut all: Vec<Vec<String>> = Vec::new();
                for st in &it[1..] {
                    let mut own = Vec::new();
                    let b = body(&names, &mut own, st.list());
                    all.push(own);
                    m.stages.push(Stage { body: b, seat: [255; 2] });
                }
                let mut seen: Vec<&String> = Vec::new();
                for v in all.iter().flatten() {
                    if !seen.contains(&v) {
                        seen.push(v);
                        if all.iter().filter(|o| o.contains(v)).count() > 1 {
                            assert!(m.carried < 2, "three carried variables");
                            for (k, o) in all.iter().enumerate() {
                                if let Some(p) = o.iter().position(|x| x == v) {
                                    m.stages[k].seat[m.carried] = p;
                                }
                            }
                            m.carried += 1;
                        }
                    }
                }
                continue;
            }
            "rule" => {
                let h = it[1].list();
                for v in &h[1..] {
                    seat(&mut scope, v.word());
                }
                match names.iter().find(|n| n.0 == h[0].word()).unwrap().1 {
                    Kind::Rel(rel, arity) => (Act::Rule { arity, rel }, 2),
                    _ => panic!("a derived relation was expected"),
                }
            }
            "new" => (Act::New { set: set(&names, &it[1]) }, 2),
            "next" => {
                seat(&mut scope, it[1].word());
                (
                    Act::Next {
                        add: set(&names, &it[2]),
                        sub: set(&names, &it[3]),
                    },
                    4,
                )
            }
            o => panic!("no form begins with {o}"),
        };
        m.clauses.push(Clause {
            line: i as u32 + 1,
            act,
            body: body(&names, &mut scope, &it[from..]),
        });
    }
    m
}
