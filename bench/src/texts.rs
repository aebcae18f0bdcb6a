//! The texts of the benchmark: course-size, full-size, and the worst cases that we know of.

use std::fmt::Write;

/// A text with its name and what it is there for.
pub struct Text {
    pub name: &'static str,
    pub bytes: String,
}

/// The state relations of the large texts.
pub const STATES: [&str; 7] = ["A", "B", "C", "D", "E", "F", "G"];
/// Their pair relations.
pub const PAIRS: [&str; 6] = ["P", "Q", "R", "S", "T", "U"];

/// The lines that declare the seven state relations, single relations and pair relations.
pub fn declared(singles: &[&str], pairs: &[&str]) -> String {
    let mut t = String::new();
    for s in STATES {
        writeln!(t, "(state {s})").unwrap();
    }
    for s in singles {
        writeln!(t, "(rel {s} 1)").unwrap();
    }
    for p in pairs {
        writeln!(t, "(rel {p} 2)").unwrap();
    }
    t
}

/// Eight lines that reach all 127 states: one creates the full state, the others each remove a relation.
pub fn all_states(t: &mut String) {
    writeln!(t, "(new (A B C D E F G))").unwrap();
    for s in STATES {
        writeln!(t, "(next x () ({s}) ({s} x))").unwrap();
    }
}

/// Lines that count an object's state up from 1 to 127 in steps of 1; a step needs the single relation O, where it is declared.
pub fn counter(t: &mut String, guarded: bool) {
    writeln!(t, "(new (A))").unwrap();
    let guards: Vec<String> = if guarded {
        vec!["O".to_string()]
    } else {
        STATES[1..].iter().map(|s| s.to_string()).collect()
    };
    for g in &guards {
        writeln!(t, "(next x (A) () ({g} x) (not (A x)))").unwrap();
    }
    for i in 1..7 {
        let low = STATES[..i].join(" ");
        let ones: String = STATES[..i].iter().map(|l| format!("({l} x) ")).collect();
        let guard = if guarded { " (O x)" } else { "" };
        writeln!(t, "(next x ({}) ({low}) {ones}(not ({} x)){guard})", STATES[i], STATES[i]).unwrap();
    }
}

/// Document 01's second office text.
pub fn office() -> String {
    "(state Admin)\n(state User)\n(rel Control 1)\n(new (Admin))\n(new (User))\n(next x (Admin) () (User x) (Admin y))\n\
     (rule (Control x) (Admin x))\n(ask ((User x) (not (Admin x))) ((Control x)))\n"
        .to_string()
}

/// A course text: integrity levels of processes and objects, after the EON paper's model of Vista.
pub fn integrity() -> String {
    let mut t = String::from(
        "(state P)\n(state Low)\n(state Med)\n(state High)\n(rel Obj 1)\n(rel ByMed 0)\n(rel ByHigh 0)\n(rel Geq 2)\n(rel Write 2)\n(rel Execute 2)\n",
    );
    for s in ["Low", "Med", "High"] {
        write!(t, "(new ({s}))\n(rule (Obj x) ({s} x))\n").unwrap();
    }
    t.push_str(
        "(next x (P) () (Obj x))\n(rule (ByMed) (P x) (Med x))\n(rule (ByMed) (ByHigh))\n(rule (ByHigh) (P x) (High x))\n\
         (next y (Low) (Med) (Med y) (ByMed))\n(next y (Med) (High) (High y) (ByHigh))\n(next y (Low) (High) (High y) (ByHigh))\n\
         (next y (Med) (Low) (Low y) (not (P y)) (ByMed))\n(next y (High) (Low) (Low y) (not (P y)) (ByHigh))\n\
         (next y (High) (Med) (Med y) (not (P y)) (ByHigh))\n(next x (Med) (High) (High x) (P x))\n\
         (next x (Low) (High) (High x) (P x))\n(next x (Low) (Med) (Med x) (P x))\n(rule (Geq x y) (High x) (Obj y))\n\
         (rule (Geq x y) (Med x) (Med y))\n(rule (Geq x y) (Med x) (Low y))\n(rule (Geq x y) (Low x) (Low y))\n\
         (rule (Write x y) (P x) (Geq x y))\n(rule (Execute x y) (P x) (Geq y x))\n\
         (ask ((Low x) (Write x y)) ((High z)) ((Med z) (Execute z y)))\n",
    );
    t
}

/// 127 states, no derived relation.
fn flips() -> String {
    let mut t = declared(&[], &[]);
    all_states(&mut t);
    t.push_str("(ask ((A x) (not (B x))) ((C x) (not (A x))) ((D y) (E y)) ((F x) (not (C x))))\n");
    t
}

/// 127 states, 16 relations, 64 clauses of a plain kind.
fn office_block() -> String {
    let mut t = declared(&["I", "J", "K", "L", "M", "N", "O", "V", "W", "X"], &PAIRS);
    all_states(&mut t);
    for (i, r) in ["I", "J", "K", "L", "M", "N", "O", "V", "W", "X"].iter().enumerate() {
        writeln!(t, "(rule ({r} x) ({} x) ({} x))", STATES[i % 7], STATES[(i + 2) % 7]).unwrap();
        writeln!(t, "(rule ({r} x) ({} x) (not ({} x)))", STATES[(i + 1) % 7], STATES[(i + 3) % 7]).unwrap();
    }
    for (i, p) in PAIRS.iter().enumerate() {
        writeln!(
            t,
            "(rule ({p} x y) ({} x) ({} y) (not ({} y)))",
            STATES[i],
            STATES[(i + 1) % 7],
            STATES[(i + 2) % 7]
        )
        .unwrap();
        writeln!(t, "(rule ({p} x y) (I x) ({} y) (X x) (not ({} x)))", STATES[(i + 3) % 7], STATES[(i + 4) % 7]).unwrap();
        writeln!(t, "(rule ({p} x y) ({} x z) ({} z y) (J z))", PAIRS[(i + 1) % 6], PAIRS[(i + 2) % 6]).unwrap();
    }
    for i in 0..7 {
        writeln!(
            t,
            "(next x ({}) ({}) ({} x y) ({} y))",
            STATES[i],
            STATES[(i + 1) % 7],
            PAIRS[i % 6],
            STATES[(i + 5) % 7]
        )
        .unwrap();
    }
    t.push_str("(ask ((P x y) (A x)) ((Q x z) (B z)) ((R x v)) ((S x w) (not (A x)) (U w x)))\n");
    t
}

/// A literal that says whether a state relation is set.
pub fn bit(set: bool, relation: usize, v: &str) -> String {
    if set {
        format!(" ({} {v})", STATES[relation])
    } else {
        format!(" (not ({} {v}))", STATES[relation])
    }
}

/// Bodies that say: of two states, the three low relations of the second count one more than those of the first.
fn low_steps(x: &str, y: &str) -> Vec<String> {
    (0..7)
        .map(|n| (0..3).map(|i| bit(n >> i & 1 == 1, i, x) + &bit((n + 1) >> i & 1 == 1, i, y)).collect())
        .collect()
}

/// Rules for P, which holds if the four high relations of the second state count one more than those of the first, and for Q, if they are the same.
fn high_steps(t: &mut String) {
    for s in &STATES[..3] {
        writeln!(t, "(rule (Low x) ({s} x){})", (3..7).map(|i| bit(false, i, "x")).collect::<String>()).unwrap();
    }
    writeln!(t, "(rule (P x y) (Low x){})", (3..7).map(|i| bit(i == 3, i, "y")).collect::<String>()).unwrap();
    for n in 1..15 {
        let body: String = (0..4)
            .map(|i| bit(n >> i & 1 == 1, 3 + i, "x") + &bit((n + 1) >> i & 1 == 1, 3 + i, "y"))
            .collect();
        writeln!(t, "(rule (P x y){body})").unwrap();
    }
    t.push_str("(rule (Q x y) (P z x) (P z y))\n(rule (Q x y) (P x z) (P y z))\n");
}

/// Four pair relations hand one fact round over all pairs of 127 states: some 65,000 facts, one after the other.
fn hand_round() -> String {
    let mut t = declared(&["First", "Low", "Row", "Next"], &PAIRS);
    all_states(&mut t);
    hand_round_rules(&mut t, 127);
    writeln!(t, "(ask ((R x x){}))", is(127, "x")).unwrap();
    t
}

/// The literals that say that a variable stands for the state.
pub fn is(state: u32, v: &str) -> String {
    (0..7).map(|i| bit(state >> i & 1 == 1, i, v)).collect()
}

/// Rules that hand one fact round over all pairs of the states from 1 to the last.
pub fn hand_round_rules(t: &mut String, last: u32) {
    high_steps(t);
    writeln!(t, "(rule (First x){})", is(1, "x")).unwrap();
    t.push_str("(rule (R x y) (S x y))\n(rule (S x y) (T x y))\n(rule (T x y) (U x y))\n");
    for body in low_steps("z", "y") {
        writeln!(t, "(rule (U x y) (R x z) (Q z y){body})").unwrap();
    }
    let carry: String = (0..3).map(|i| bit(true, i, "z") + &bit(false, i, "y")).collect();
    writeln!(t, "(rule (U x y) (R x z) (P z y){carry})").unwrap();
    writeln!(t, "(rule (Row x) (R x y){})", is(last, "y")).unwrap();
    for body in low_steps("z", "x") {
        writeln!(t, "(rule (Next x) (Row z) (Q z x){body})").unwrap();
    }
    writeln!(t, "(rule (Next x) (Row z) (P z x){})", carry.replace('y', "x")).unwrap();
    t.push_str("(rule (U x y) (Next x) (First y))\n(rule (U x y) (First x) (First y))\n");
}

/// Seven rules after which a single relation has every state.
pub fn every(t: &mut String, relation: &str) {
    for s in STATES {
        writeln!(t, "(rule ({relation} x) ({s} x))").unwrap();
    }
}

/// A body of n literals over three variables and pair relations, with each of the three pairs of variables among the first three.
pub fn tangle(n: usize, shift: usize, pairs: &[&str]) -> String {
    let seats = ["x z", "z y", "y x", "z x", "y z", "x y", "z z", "y y"];
    (0..n).map(|i| format!(" ({} {})", pairs[(i + shift) % pairs.len()], seats[i])).collect()
}

/// Six full pair relations over 127 states, and rules of eight literals and three variables over them.
fn six_full(find: impl Fn(&mut String)) -> String {
    let mut t = declared(&["O"], &PAIRS);
    find(&mut t);
    full_relations(&mut t, 43);
    t.push_str("(ask ((P x y) (Q y z) (R z x)))\n");
    t
}

/// Lines that fill the six pair relations over all states, and so many rules of eight literals over them.
pub fn full_relations(t: &mut String, rules: usize) {
    every(t, "O");
    full_rules(t, rules);
}

/// Lines that fill the six pair relations over the states that have O, and so many rules of eight literals over them.
pub fn full_rules(t: &mut String, rules: usize) {
    for p in PAIRS {
        writeln!(t, "(rule ({p} x y) (O x) (O y))").unwrap();
    }
    for i in 0..rules {
        writeln!(t, "(rule ({} x y){})", PAIRS[i % 6], tangle(8, i, &PAIRS)).unwrap();
    }
}

/// Lines that make pair relations between states that are alike in one relation, or between those that are not.
pub fn halves(t: &mut String, alike: &[&str], unlike: &[&str]) {
    for p in alike {
        writeln!(t, "(rule ({p} x y) (O x) (O y) (A x) (A y))").unwrap();
        writeln!(t, "(rule ({p} x y) (O x) (O y) (not (A x)) (not (A y)))").unwrap();
    }
    for p in unlike {
        writeln!(t, "(rule ({p} x y) (O x) (O y) (A x) (not (A y)))").unwrap();
        writeln!(t, "(rule ({p} x y) (O x) (O y) (not (A x)) (A y))").unwrap();
    }
}

/// Bodies of eight literals that hold for each two of three variables and never for all three.
pub fn no_triangle(i: usize) -> String {
    let alike = ["Q", "R", "S"];
    let (a, b, c) = (alike[i % 3], alike[(i + 1) % 3], alike[(i + 2) % 3]);
    let bodies = [
        format!(" (P x z) ({a} z y) ({b} x y) (T z x) ({c} y z) ({a} y x) ({b} z z) ({c} y y)"),
        format!(" ({a} x z) (P z y) ({b} x y) ({c} z x) (T y z) ({a} y x) ({b} z z) ({c} y y)"),
        format!(" ({a} x z) ({b} z y) (P x y) ({c} z x) ({a} y z) (T y x) ({b} z z) ({c} y y)"),
    ];
    bodies[i % 3].clone()
}

/// Half-full pair relations, and rules of eight literals and three variables that never hold.
fn never(find: impl Fn(&mut String)) -> String {
    let mut t = declared(&["O"], &PAIRS);
    find(&mut t);
    every(&mut t, "O");
    halves(&mut t, &["Q", "R", "S"], &["P", "T"]);
    for i in 0..39 {
        writeln!(t, "(rule (U x y){})", no_triangle(i)).unwrap();
    }
    t.push_str("(ask ((U x y)))\n");
    t
}

/// The transitive closure of six relations, each along the count of 127 states.
fn closures() -> String {
    let mut t = declared(&["Low"], &PAIRS);
    all_states(&mut t);
    high_steps(&mut t);
    for body in low_steps("x", "y") {
        writeln!(t, "(rule (R x y) (Q x y){body})").unwrap();
    }
    let carry: String = (0..3).map(|i| bit(true, i, "x") + &bit(false, i, "y")).collect();
    writeln!(t, "(rule (R x y) (P x y){carry})").unwrap();
    t.push_str("(rule (S x y) (R x y))\n(rule (S x y) (S x z) (R z y))\n");
    t.push_str("(rule (T x y) (R x y))\n(rule (T x y) (R x z) (T z y))\n");
    t.push_str("(rule (U x y) (R y x))\n(rule (U x y) (U x z) (U z y))\n");
    writeln!(t, "(ask ((S x y) (T x y) (U y x){}))", (0..5).map(|i| bit(true, i, "y")).collect::<String>()).unwrap();
    t
}

/// 56 `next` lines of eight literals and three variables that never hold, four stages, and a carried object that is moved one state at a time.
fn slow_levels() -> String {
    let mut t = declared(&["O"], &PAIRS);
    every(&mut t, "O");
    halves(&mut t, &["Q", "R", "S"], &["P", "T"]);
    cycle(&mut t, true);
    for i in 0..38 {
        writeln!(t, "(next x (A) (B){})", no_triangle(i)).unwrap();
    }
    last_states(&mut t);
    t
}

/// Four stages whose carried variable stands last, behind two variables that a full pair relation leaves free, and so many rules of eight literals that never hold.
fn carried_last(rules: usize) -> String {
    let mut t = declared(&["O"], &PAIRS);
    all_states(&mut t);
    every(&mut t, "O");
    halves(&mut t, &["Q", "R", "S"], &["P", "T"]);
    writeln!(t, "(rule (U x y) (O x) (O y))").unwrap();
    for i in 0..rules {
        writeln!(t, "(rule (P x y){})", no_triangle(i)).unwrap();
    }
    t.push_str("(ask");
    for (k, n) in [127, 126, 124, 120].iter().enumerate() {
        let body: String = (0..6).map(|i| bit(n >> i & 1 == 1, i, "c")).collect();
        write!(t, " ((U a{k} b{k}) (U b{k} a{k}){body})").unwrap();
    }
    t.push_str(")\n");
    t
}

/// Bodies of eight literals and two variables that hold for no two states, though each relation has half of all pairs.
fn no_pair(i: usize) -> String {
    let alike = ["Q", "R", "S"];
    let (a, b, c) = (alike[i % 3], alike[(i + 1) % 3], alike[(i + 2) % 3]);
    format!(" ({a} x y) ({b} y x) ({c} x y) ({a} y x) ({b} x y) ({c} y x) (P x y) (T y x)")
}

/// `next` lines that fail for every pair of states, and a carried object that is moved one state at a time.
fn slow_pairs() -> String {
    let mut t = declared(&["O"], &PAIRS[..5]);
    every(&mut t, "O");
    halves(&mut t, &["Q", "R", "S"], &["P", "T"]);
    cycle(&mut t, true);
    for i in 0..38 {
        writeln!(t, "(next x (A) (B){})", no_pair(i)).unwrap();
    }
    last_states(&mut t);
    t
}

/// The counter, each step of which needs a pair that is derived from the state before: states, facts and guards are found one after the other.
pub fn chained(t: &mut String) {
    writeln!(t, "(new (A))").unwrap();
    writeln!(t, "(next x (A) () (O x) (not (A x)) (U x y) (U y x) (O y))").unwrap();
    for i in 1..7 {
        let low = STATES[..i].join(" ");
        let ones: String = STATES[..i].iter().map(|l| format!("({l} x) ")).collect();
        writeln!(t, "(next x ({}) ({low}) {ones}(not ({} x)) (U x y))", STATES[i], STATES[i]).unwrap();
    }
}

/// States that come one at a time, each after the pairs of the one before, and rules of eight literals over full relations; or over half-full ones, which never hold.
fn chained_full() -> String {
    six_full(chained)
}

fn chained_never() -> String {
    let mut t = declared(&["O"], &PAIRS);
    chained(&mut t);
    every(&mut t, "O");
    halves(&mut t, &["Q", "R", "S"], &["P", "T"]);
    writeln!(t, "(rule (U x y) (O x) (O y))").unwrap();
    for i in 0..19 {
        writeln!(t, "(rule (P x y){})", no_triangle(i)).unwrap();
    }
    for i in 0..18 {
        writeln!(t, "(next x (A) (B){})", no_triangle(i)).unwrap();
    }
    t.push_str("(ask ((U x y) (P x y) (Q x y)))\n");
    t
}

/// The 24 labels of the wide texts: at every third place one of the seven that count, and seventeen more.
fn wide_labels() -> Vec<String> {
    (0..24)
        .map(|i| match (i % 3, i / 3) {
            (0, k) if k < 7 => STATES[k].to_string(),
            _ => format!("X{i}"),
        })
        .collect()
}

/// The labels that come and go together with one of the seven, which is the first.
fn with(i: usize) -> Vec<String> {
    let own = STATES[i].to_string();
    let others = (0..24).map(|k| format!("X{k}")).filter(|l| wide_labels().contains(l));
    [own].into_iter().chain(others.skip(i).step_by(7)).collect()
}

/// The lines that declare 24 labels, O and the pair relations.
fn declared_wide() -> String {
    let mut t: String = wide_labels().iter().map(|l| format!("(state {l})\n")).collect();
    t.push_str("(rel O 1)\n");
    for p in PAIRS {
        writeln!(t, "(rel {p} 2)").unwrap();
    }
    t
}

/// The worst text for the joins with 127 states over 24 labels: the lines of the counter set and clear two to four labels for each of seven.
fn chained_wide() -> String {
    let mut t = declared_wide();
    writeln!(t, "(new ({}))", with(0).join(" ")).unwrap();
    writeln!(t, "(next x ({}) () (O x) (not (A x)) (U x y) (U y x) (O y))", with(0).join(" ")).unwrap();
    for i in 1..7 {
        let low: Vec<String> = (0..i).flat_map(with).collect();
        let ones: String = STATES[..i].iter().map(|l| format!("({l} x) ")).collect();
        writeln!(t, "(next x ({}) ({}) {ones}(not ({} x)) (U x y))", with(i).join(" "), low.join(" "), STATES[i]).unwrap();
    }
    full_relations(&mut t, 43);
    t.push_str("(ask ((P x y) (Q y z) (R z x)))\n");
    t
}

/// A line that gives the state 127, once a guard holds, an eighth label: the 128th state.
fn one_more(t: &mut String, guard: &str) {
    let at = t.find("(rel ").expect("a derived relation");
    t.insert_str(at, "(state H)\n(rel Last 1)\n");
    writeln!(t, "(rule (Last x){})\n(next x (H) () (Last x){guard})", is(127, "x")).unwrap();
}

/// States that come one at a time over full relations, and the 128th after pairs of all six.
fn chained_over() -> String {
    let mut t = declared(&["O"], &PAIRS);
    chained(&mut t);
    full_relations(&mut t, 41);
    one_more(&mut t, " (P x y) (Q y x) (R x x) (S y y) (T x y) (U y x) (A y)");
    t.push_str("(ask ((P x y) (Q y z) (R z x)))\n");
    t
}

/// One fact handed round over all pairs of 127 states, the last of which brings the 128th state.
fn hand_round_over() -> String {
    let mut t = declared(&["First", "Low", "Row", "Next"], &PAIRS);
    all_states(&mut t);
    hand_round_rules(&mut t, 127);
    one_more(&mut t, " (R x x)");
    writeln!(t, "(ask ((R x x){}))", is(127, "x")).unwrap();
    t
}

/// All sets of 24 labels, and so many rules of eight literals over full relations.
fn millions(rules: Option<usize>) -> String {
    let mut t = declared_wide();
    writeln!(t, "(new ({}))", wide_labels().join(" ")).unwrap();
    for l in wide_labels() {
        writeln!(t, "(next x () ({l}) ({l} x))").unwrap();
    }
    if let Some(rules) = rules {
        full_relations(&mut t, rules);
    }
    t.push_str("(ask ((A x) (X1 x)))\n");
    t
}

/// The counter, and a line that begins it anew.
fn cycle(t: &mut String, guarded: bool) {
    counter(t, guarded);
    writeln!(t, "(next x (A) (B C D E F G){})", is(127, "x")).unwrap();
}

/// A question of four stages, each a whole round of the counter after the one before.
fn last_states(t: &mut String) {
    t.push_str("(ask");
    for n in [127, 126, 125, 124] {
        write!(t, " ({})", is(n, "x").trim_start()).unwrap();
    }
    t.push_str(")\n");
}

/// The text whose shown run has 8,637 places.
fn longest_run() -> String {
    let mut t = declared(&[], &[]);
    cycle(&mut t, false);
    last_states(&mut t);
    t
}

/// The same with derived relations, which are derived anew for each state that is added.
fn longest_run_full() -> String {
    let mut t = declared(&["O"], &PAIRS);
    cycle(&mut t, true);
    full_relations(&mut t, 42);
    last_states(&mut t);
    t
}

/// The text whose shown run has 9,142 places: two objects that go a whole round of the counter between the stages.
pub fn longest_run_of_pair() -> String {
    let names = ["I", "J", "K", "L"];
    let mut t = declared(&names, &[]);
    cycle(&mut t, false);
    for (name, n) in names.iter().zip([127, 126, 125, 124]) {
        writeln!(t, "(rule ({name} x){})", is(n, "x")).unwrap();
    }
    writeln!(t, "(ask {})", names.map(|n| format!("(({n} x) ({n} y))")).join(" ")).unwrap();
    t
}

/// A question of four stages that carry x and y, each with a third variable of its own.
pub fn four_of_pair(t: &mut String, bodies: [String; 4]) {
    t.push_str("(ask");
    for (k, body) in bodies.iter().enumerate() {
        write!(t, " ({})", body.trim_start().replace('z', &format!("z{k}"))).unwrap();
    }
    t.push_str(")\n");
}

/// A pair through four stages of eight literals over six full relations, so that each pair of states is followed.
pub fn pair_full(find: impl Fn(&mut String)) -> String {
    let mut t = declared(&["O"], &PAIRS);
    find(&mut t);
    full_relations(&mut t, 43);
    four_of_pair(&mut t, [0, 1, 2, 3].map(|i| tangle(8, i, &PAIRS)));
    t
}

/// The same over half-full relations, where the last stage holds for each two of its variables and never for all three.
fn pair_never() -> String {
    let mut t = declared(&["O"], &PAIRS);
    all_states(&mut t);
    every(&mut t, "O");
    halves(&mut t, &["Q", "R", "S"], &["P", "T"]);
    for i in 0..39 {
        writeln!(t, "(rule (U x y){})", no_triangle(i)).unwrap();
    }
    let alike = ["Q", "R", "S"];
    let [one, two, three] = [0, 1, 2].map(|i| tangle(8, i, &alike));
    four_of_pair(&mut t, [one, two, three, no_triangle(0)]);
    t
}

/// A text of 16,384 bytes: rules of eight literals with names and variables of 16 letters, then short lines that fill it up.
fn longest_text() -> String {
    const SIZE: usize = 16_384;
    let mut t = declared(&[], &[]);
    all_states(&mut t);
    let name = |letter: &str, n: usize| letter.repeat(n);
    let (r, x, y, z) = (name("R", 16), name("x", 16), name("y", 16), name("z", 16));
    writeln!(t, "(rel N 0)\n(rel {r} 2)").unwrap();
    let body: String = [(&x, &z), (&z, &y), (&y, &x), (&z, &x), (&y, &z), (&x, &y), (&z, &z), (&y, &y)]
        .iter()
        .map(|(a, b)| format!(" ({r} {a} {b})"))
        .collect();
    let line = format!("(rule ({r} {x} {y}){body})\n");
    while t.len() + line.len() + 100 < SIZE {
        t.push_str(&line);
    }
    let rest = |t: &String| SIZE - t.len();
    while rest(&t) > 29 {
        let letters = (rest(&t) - 30).min(16).max(1);
        writeln!(t, "(rule (N) (A {}))", name("x", letters)).unwrap();
    }
    let letters = rest(&t) - 13;
    writeln!(t, "(ask ((A {})))", name("x", letters)).unwrap();
    t
}

/// All texts.
pub fn all() -> Vec<Text> {
    let text = |name, bytes| Text { name, bytes };
    vec![
        text("office", office()),
        text("integrity levels", integrity()),
        text("127 states", flips()),
        text("64 clauses, 16 relations", office_block()),
        text("longest run", longest_run()),
        text("longest run, six full relations", longest_run_full()),
        text("longest run of a pair", longest_run_of_pair()),
        text("one fact handed round", hand_round()),
        text("transitive closures", closures()),
        text("six full relations", six_full(all_states)),
        text("six full relations, slowly", six_full(|t| counter(t, true))),
        text("never all three", never(all_states)),
        text("never all three, slowly", never(|t| counter(t, true))),
        text("carried, one at a time", slow_levels()),
        text("carried last", carried_last(0)),
        text("carried last, 64 clauses", carried_last(38)),
        text("no pair, one at a time", slow_pairs()),
        text("a pair, six full relations", pair_full(all_states)),
        text("a pair, six full relations, slowly", pair_full(chained)),
        text("a pair, never all three", pair_never()),
        text("chained, six full relations", chained_full()),
        text("chained, never all three", chained_never()),
        text("24 labels, chained, six full relations", chained_wide()),
        text("2^24 states", millions(None)),
        text("2^24 states, six full relations", millions(Some(26))),
        text("128 states, chained, six full relations", chained_over()),
        text("128 states, one fact handed round", hand_round_over()),
        text("longest text", longest_text()),
    ]
}
