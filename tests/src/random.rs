//! Seeded random numbers (xorshift), and random models.

pub struct Random(u64);

impl Random {
    pub fn new(seed: u64) -> Random {
        let mut r = Random(seed.wrapping_mul(0x9e37_79b9_7f4a_7c15) | 1);
        r.next();
        r
    }

    fn next(&mut self) -> u64 {
        self.0 ^= self.0 << 13;
        self.0 ^= self.0 >> 7;
        self.0 ^= self.0 << 17;
        self.0
    }

    /// A number below n.
    pub fn below(&mut self, n: usize) -> usize {
        (self.next() >> 11) as usize % n
    }

    pub fn chance(&mut self, percent: usize) -> bool {
        self.below(100) < percent
    }

    pub fn pick<T: Copy>(&mut self, items: &[T]) -> T {
        items[self.below(items.len())]
    }

    /// The items in another order.
    pub fn shuffle<T>(&mut self, items: &mut [T]) {
        for i in (1..items.len()).rev() {
            items.swap(i, self.below(i + 1));
        }
    }

    /// Any 32-bit number.
    pub fn word(&mut self) -> u32 {
        (self.next() >> 16) as u32
    }
}

/// How large a random model is; of relations and stages it may have fewer.
#[derive(Clone, Copy)]
pub struct Shape {
    pub states: usize,
    pub relations: usize,
    pub clauses: usize,
    pub stages: usize,
}

/// Names of relations, some spelled like words of the language or like variables.
const NAMES: [&str; 32] = [
    "A",
    "B",
    "C",
    "D",
    "R",
    "P",
    "Q",
    "N",
    "state",
    "x",
    "new",
    "Not",
    "ask1",
    "Sixteen16letters",
    "E",
    "F",
    "G",
    "H",
    "I",
    "J",
    "K",
    "L",
    "M",
    "O",
    "S",
    "T",
    "rel",
    "not1",
    "A1",
    "a",
    "Sixteen16lettera",
    "Z",
];
const VARIABLES: [&str; 3] = ["x", "y", "z"];
/// The variables that stand in several stages.
pub const CARRIED: [&str; 2] = ["w", "v"];

/// The names that a random text declares; derived relations have their arities.
struct Names {
    states: Vec<&'static str>,
    derived: Vec<(&'static str, usize)>,
}

impl Names {
    fn new(r: &mut Random, s: Shape) -> Names {
        let mut names = NAMES[..if s.states > 7 { 32 } else { 14 }].to_vec();
        let mut draw = |r: &mut Random| names.swap_remove(r.below(names.len()));
        let states = (0..s.states).map(|_| draw(r)).collect();
        let derived = (0..r.below(s.relations + 1)).map(|_| (draw(r), r.pick(&[1, 2, 2, 0]))).collect();
        Names { states, derived }
    }

    fn of_arity(&self, arity: usize) -> Vec<&'static str> {
        self.derived.iter().filter(|d| d.1 == arity).map(|d| d.0).collect()
    }

    /// A literal without `not` that has the variable, and others at random.
    fn literal(&self, r: &mut Random, variable: &str, variables: &[&str]) -> String {
        let singles = self.of_arity(1);
        let pairs = self.of_arity(2);
        match r.below(10) {
            0 if !singles.is_empty() => format!("({} {variable})", r.pick(&singles)),
            1..=2 if !pairs.is_empty() => {
                let other = r.pick(variables);
                let (first, second) = if r.chance(50) { (variable, other) } else { (other, variable) };
                format!("({} {first} {second})", r.pick(&pairs))
            }
            _ => format!("({} {variable})", r.pick(&self.states)),
        }
    }

    /// A body in which each of the variables stands in a literal without `not`.
    fn body(&self, r: &mut Random, variables: &[&str]) -> Vec<String> {
        let mut literals: Vec<String> = variables.iter().map(|v| self.literal(r, v, variables)).collect();
        if !variables.is_empty() {
            if r.chance(30) {
                let v = r.pick(variables);
                literals.push(self.literal(r, v, variables));
            }
            if r.chance(35) {
                literals.push(format!("(not ({} {}))", r.pick(&self.states), r.pick(variables)));
            }
        }
        let nullary = self.of_arity(0);
        if !nullary.is_empty() && r.chance(15) {
            literals.push(format!("({})", r.pick(&nullary)));
        }
        if !literals.is_empty() && r.chance(30) {
            let last = literals.pop().unwrap();
            literals.insert(0, last);
        }
        literals
    }

    fn list(&self, r: &mut Random, least: usize, most: usize) -> String {
        let names: Vec<&str> = (0..least + r.below(most + 1 - least)).map(|_| r.pick(&self.states)).collect();
        format!("({})", names.join(" "))
    }

    fn rule(&self, r: &mut Random) -> Option<String> {
        let (name, arity) = *self.derived.get(r.below(self.derived.len().max(1)))?;
        if arity == 2 && r.chance(20) {
            return Some(format!("(rule ({name} x y) ({name} x z) ({name} z y))"));
        }
        let variables = &VARIABLES[..arity + r.below(4 - arity)];
        let head: String = variables[..arity].iter().map(|v| format!(" {v}")).collect();
        Some(format!("(rule ({name}{head}){})", joined(&self.body(r, variables))))
    }

    fn new_line(&self, r: &mut Random) -> String {
        let count = r.pick(&[0, 0, 1, 1, 2, 3]);
        format!("(new {}{})", self.list(r, 0, 2), joined(&self.body(r, &VARIABLES[..count])))
    }

    /// A line that relabels at random, or takes an object from one relation to another.
    fn next_line(&self, r: &mut Random) -> String {
        let count = r.pick(&[1, 1, 1, 2, 2, 3]);
        if r.chance(40) {
            let body = self.body(r, &VARIABLES[..count]);
            return format!("(next x {} {}{})", self.list(r, 0, 2), self.list(r, 0, 2), joined(&body));
        }
        let (from, to) = (r.pick(&self.states), r.pick(&self.states));
        let left = if r.chance(60) { from } else { "" };
        let helpers = self.body(r, &VARIABLES[1..count]);
        format!("(next x ({to}) ({left}) ({from} x){})", joined(&helpers))
    }

    fn clause(&self, r: &mut Random) -> Option<String> {
        match r.below(10) {
            0 => Some(self.new_line(r)),
            1..=5 => Some(self.next_line(r)),
            _ => self.rule(r),
        }
    }

    /// A stage with variables of its own, and with these carried ones.
    fn stage(&self, r: &mut Random, number: usize, carried: &[&'static str]) -> String {
        let own = [format!("a{number}"), format!("b{number}"), format!("c{number}")];
        let mut variables: Vec<&str> = own[..r.below(4 - carried.len())].iter().map(|v| v.as_str()).collect();
        for v in carried {
            variables.insert(r.below(variables.len() + 1), v);
        }
        if variables.is_empty() && self.of_arity(0).is_empty() {
            variables.push(&own[0]);
        }
        let mut body = self.body(r, &variables);
        if body.is_empty() {
            body.push(format!("({})", r.pick(&self.of_arity(0))));
        }
        format!("({})", body.join(" "))
    }

    fn question(&self, r: &mut Random, most: usize) -> String {
        let carries = &CARRIED[..r.pick(&[0, 1, 2, 2])];
        let mut stages = Vec::new();
        for i in 0..1 + r.below(most) {
            let carried: Vec<&str> = carries.iter().copied().filter(|_| r.chance(80)).collect();
            stages.push(self.stage(r, i, &carried));
        }
        format!("(ask {})", stages.join(" "))
    }
}

fn joined(literals: &[String]) -> String {
    literals.iter().map(|l| format!(" {l}")).collect()
}

/// A text that is accepted.
pub fn model(r: &mut Random, s: Shape) -> String {
    let names = Names::new(r, s);
    let mut lines: Vec<String> = names.states.iter().map(|n| format!("(state {n})")).collect();
    lines.extend(names.derived.iter().map(|(name, arity)| format!("(rel {name} {arity})")));
    r.shuffle(&mut lines);
    let mut clauses: Vec<String> = (0..1 + r.below(3)).map(|_| format!("(new {})", names.list(r, 1, 2))).collect();
    clauses.extend((0..s.clauses).filter_map(|_| names.clause(r)));
    r.shuffle(&mut clauses);
    lines.extend(clauses);
    lines.push(names.question(r, s.stages));
    lines.join("\n") + "\n"
}
