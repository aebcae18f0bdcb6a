//! The calls beside the analysis and the replay: ordinary texts, and the worst that we know of for each call.

use crate::runs::{self, next_line};
use crate::texts::{
    all_states, chained, counter, declared, every, four_of_pair, full_relations, integrity, is, longest_run_of_pair, office, pair_full, tangle, PAIRS, STATES,
};
use std::fmt::Write;

/// The examples of the game and of the lines to strike.
const ACCOUNT: &str = include_str!("../../examples/account.eon");
const MISTAKEN: &str = include_str!("../../examples/pay-mistaken.eon");

/// What is asked of a text.
pub enum Ask {
    /// What can become of an object after some places.
    From { before: Vec<u32>, object: u32 },
    /// The fewest of some lines that cure.
    Cure(Vec<u32>),
    /// How many choices of some lines are reached.
    Tally(Vec<u32>),
    /// The game of two sides.
    Game { attacker: Vec<u32>, guardian: Vec<u32> },
    /// The shortest way between two states.
    Way { from: u32, to: u32 },
    /// The mark of the run shown.
    Yes,
    /// The mark of the run shown without its last place.
    Short,
    /// The mark of a no.
    No,
}

/// A text with what is asked of it.
pub struct Call {
    pub name: &'static str,
    pub bytes: String,
    pub ask: Ask,
}

/// The line that empties an object of any state.
fn emptying(t: &mut String) {
    writeln!(t, "(next x () (A B C D E F G) (O x))").unwrap();
}

/// Rules of eight literals over six full relations and states that come one at a time, each of which may be emptied; the question is of one object.
fn chained_object() -> String {
    let mut t = declared(&["O"], &PAIRS);
    chained(&mut t);
    emptying(&mut t);
    full_relations(&mut t, 42);
    writeln!(t, "(ask ({}))", is(127, "x").trim_start()).unwrap();
    t
}

/// A text of 64 clauses: states found by some lines, a line that empties an object, and as many further `next` lines as there is room for, which all hold everywhere.
fn crossed(find: impl Fn(&mut String), line: impl Fn(usize) -> String) -> String {
    let mut t = declared(&["O"], &[]);
    let declarations = next_line(&t);
    find(&mut t);
    emptying(&mut t);
    every(&mut t, "O");
    let room = 64 - (next_line(&t) - declarations) as usize;
    for i in 0..room {
        writeln!(t, "{}", line(i)).unwrap();
    }
    writeln!(t, "(ask ({}))", is(127, "x").trim_start()).unwrap();
    t
}

/// A line that sets a relation and clears another one; there are 42 of them.
fn exchange(i: usize) -> String {
    let set = i % 7;
    let cleared = (set + 1 + i / 7 % 6) % 7;
    format!("(next x ({}) ({}) (O x))", STATES[set], STATES[cleared])
}

/// A line that clears the relations of a number.
fn back(i: usize) -> String {
    let cleared: Vec<&str> = (0..7).filter(|k| (127 - i) >> k & 1 == 1).map(|k| STATES[k]).collect();
    format!("(next x () ({}) (O x))", cleared.join(" "))
}

/// The counter, which an object of its last state leaves for the empty one.
fn counter_to_empty() -> String {
    let mut t = declared(&[], &[]);
    counter(&mut t, false);
    writeln!(t, "(next x () (A B C D E F G){})", is(127, "x")).unwrap();
    writeln!(t, "(ask ({}))", is(127, "x").trim_start()).unwrap();
    t
}

/// Ten lines of which any six cure, 117 states that come one at a time, and a pair through four stages of eight literals over five full relations.
/// The ten create states that a relation puts in a row, and the last stage asks for five of them.
fn any_six() -> (String, Vec<u32>) {
    let rows: Vec<String> = (1..=10).map(|k| format!("K{k}")).collect();
    let mut t = String::new();
    for label in STATES.iter().map(|s| s.to_string()).chain(["O".to_string()]).chain(rows.clone()) {
        writeln!(t, "(state {label})").unwrap();
    }
    t.push_str("(rel Third 1)\n(rel N 0)\n");
    for p in PAIRS {
        writeln!(t, "(rel {p} 2)").unwrap();
    }
    let mut chain = String::new();
    chained(&mut chain);
    t.push_str(&chain.replace("(new (A))", "(new (A B D O))"));
    let first = next_line(&t);
    for k in 1..=10 {
        writeln!(t, "(new ({}))", rows[..k].join(" ")).unwrap();
    }
    for r in &rows[1..] {
        writeln!(t, "(rule (P x y) (K1 x) ({r} y) (not ({r} x)))").unwrap();
    }
    t.push_str("(rule (Third z) (P x y) (P y z))\n(rule (N) (Third x) (P x y) (P y z))\n");
    let full = &PAIRS[1..];
    for p in full {
        writeln!(t, "(rule ({p} x y) (O x) (O y))").unwrap();
    }
    for i in 0..30 {
        writeln!(t, "(rule ({} x y){})", full[i % 5], tangle(8, i, full)).unwrap();
    }
    let [one, two, three] = [0, 1, 2].map(|i| tangle(8, i, full));
    four_of_pair(&mut t, [one, two, three, tangle(7, 3, full) + " (N)"]);
    (t, (first..first + 10).collect())
}

/// A run that creates 126 objects by a line.
fn crowd(line: u32) -> Vec<u32> {
    (0..126).map(|object| line * 256 + object).collect()
}

/// The question after a run made to be slow, for its first object: all places but the meeting.
fn after(name: &'static str, run: &str, places: usize) -> Call {
    let run = runs::all().into_iter().find(|r| r.name == run).expect("a run of this name");
    let before = run.places[..places.min(run.places.len() - 1)].to_vec();
    Call {
        name,
        bytes: run.bytes,
        ask: Ask::From { before, object: 0 },
    }
}

/// The lines of a text that begin so.
fn lines(t: &str, begin: &str) -> Vec<u32> {
    (1..).zip(t.lines()).filter(|(_, l)| l.starts_with(begin)).map(|(i, _)| i).collect()
}

/// A call on a text.
fn call(name: &'static str, bytes: &str, ask: Ask) -> Call {
    let bytes = bytes.to_string();
    Call { name, bytes, ask }
}

/// What can become of an object of a database.
fn froms() -> Vec<Call> {
    let slowest = pair_full(chained);
    let ask = |before| Ask::From { before, object: 0 };
    vec![
        call("from, office", &office(), ask(vec![5 * 256])),
        call("from, a pair, six full relations, slowly", &slowest, ask(crowd(lines(&slowest, "(new")[0]))),
        after("from, after 1,000 changing places", "changing states, six full relations", 1_000),
    ]
}

/// Marks.
fn marks() -> Vec<Call> {
    let slowest = pair_full(chained);
    vec![
        call("mark of a yes, office", &office(), Ask::Yes),
        call("mark of a yes, longest run of a pair", &longest_run_of_pair(), Ask::Yes),
        call("mark of a yes, a pair, slowly", &slowest, Ask::Yes),
        call("mark of a run that breaks, a pair, slowly", &slowest, Ask::Short),
        call("mark of a no, office", &office(), Ask::No),
        call("mark of a no, a pair, slowly", &slowest, Ask::No),
    ]
}

/// Games and ways, the worst of which are on the same texts.
fn games_and_ways() -> Vec<Call> {
    let game = |attacker: &[u32], guardian: &[u32]| Ask::Game {
        attacker: attacker.to_vec(),
        guardian: guardian.to_vec(),
    };
    let (dense, falling, chain) = (crossed(all_states, exchange), crossed(|t| counter(t, true), back), chained_object());
    let sides = lines(&dense, "(next");
    let up = |t: &str| lines(t, "(next")[..7].to_vec();
    vec![
        call("game, account", ACCOUNT, game(&[9, 10], &[11, 12, 13])),
        call("game, dense moves", &dense, game(&sides[10..20], &sides[20..30])),
        call("game, counting up", &falling, game(&up(&falling), &[])),
        call("game, chained, six full relations", &chain, game(&up(&chain), &[])),
        call("way, integrity levels", &integrity(), Ask::Way { from: 8, to: 3 }),
        call("way, the longest", &counter_to_empty(), Ask::Way { from: 1, to: 0 }),
        call("way to empty, dense moves", &dense, Ask::Way { from: 127, to: 0 }),
        call("way to empty, counter with lines back", &falling, Ask::Way { from: 1, to: 0 }),
        call("way to empty, chained, six full relations", &chain, Ask::Way { from: 1, to: 0 }),
    ]
}

/// Lines to strike.
fn strikes() -> Vec<Call> {
    let few = lines(MISTAKEN, "(ne");
    let (slow, ten) = any_six();
    vec![
        call("cure, mistaken payments", MISTAKEN, Ask::Cure(few.clone())),
        call("tally, mistaken payments", MISTAKEN, Ask::Tally(few)),
        call("cure, any six of ten lines", &slow, Ask::Cure(ten.clone())),
        call("tally, any six of ten lines", &slow, Ask::Tally(ten)),
    ]
}

/// All calls.
pub fn all() -> Vec<Call> {
    [froms(), marks(), games_and_ways(), strikes()].into_iter().flatten().collect()
}

/// A hand-in that says yes by a run.
pub fn handin(run: &[u32]) -> String {
    let mut t = "yes\n".to_string();
    for p in run {
        if p >> 31 == 0 {
            writeln!(t, "(step {} {})", p >> 8, p & 255).unwrap();
        } else {
            let objects = [16, 8, 0].map(|by| p >> by & 255).into_iter().filter(|&o| o < 255);
            let named: String = objects.map(|o| format!(" {o}")).collect();
            writeln!(t, "(meet {}{named})", p >> 24 & 127).unwrap();
        }
    }
    t
}

/// Eighteen kinds of processes for Asbestos: levels of sending and receiving in turn, of which the first carries the mark.
pub fn kinds() -> Vec<[u32; 3]> {
    (0..18).map(|i| [i % 5, i / 5, u32::from(i == 0)]).collect()
}
