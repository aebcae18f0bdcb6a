//! Seeded random models against a plain search, with their runs, damaged runs and damaged texts.

use crate::calls::{Answer, RUN, WORK};
use crate::counter;
use crate::damage;
use crate::games;
use crate::guess;
use crate::guided;
use crate::meaning::{play, Action, Clause, Model};
use crate::onward;
use crate::paired;
use crate::playing::play_on;
use crate::random::{model, Random, Shape};
use crate::report::Report;
use crate::roaming;
use crate::search::{led_about, non_empty, search, FOLLOWED};
use crate::shuffled::shuffle_runs;
use crate::strike;
use crate::subject::{fresh, Subject};
use crate::ways;
use crate::wide;
use std::collections::BTreeSet;

/// How many models are tried.
const MODELS: u64 = 500;
/// How many models are tried whose questions join two carried variables.
const PAIRED_MODELS: u64 = 300;
/// How many larger models are tried.
const LARGE_MODELS: u64 = 30;
/// With more states than these a shown run is replayed, and not damaged and played on in every way.
const LONG: usize = 40;
/// How many models of many labels are tried whose number of states is chosen, and how many where it is left to chance.
const WIDE_MODELS: u64 = 160;
const LOOSE_MODELS: u64 = 60;
/// How many of the former in a hundred are asked about one object besides; with more rules than these and a long run the plain meaning is too slow for it.
const LED_ABOUT: usize = 50;
const RULES: usize = 2;
/// How many models are tried in which one object can be led about in many ways, and how many counters.
const ROAMING_MODELS: u64 = 150;
const COUNTERS: u64 = 100;
/// The most tries to lead the carried objects about, by the number of states.
const TRIES: usize = 6_000;
/// The most objects that the plain search takes.
const OBJECTS: usize = 8;
/// The most sessions that the plain search looks at.
const SESSIONS: usize = 3_000;

/// What plain searches found, and whether they are certain that there is no more.
struct Known {
    run: Option<Vec<u32>>,
    states: BTreeSet<u32>,
    certain: bool,
}

/// Searches with more and more objects, until nothing can have been missed. By document 01's count the reachable states can be put in an order in which
/// each is made with one object of each state before it. So a search of all sessions with n objects that finds fewer than n states has found them all:
/// the first state that it missed would have needed n objects at most. And a run needs one object of each state and one for each carried variable, so
/// the search is certain of the verdict too where n is at least the sum of these. The empty state helps to make no other, so it is not counted here; it
/// is made from one object of each of the others, with one object more at most.
fn known(m: &Model) -> Known {
    let mut known = Known { run: None, states: BTreeSet::new(), certain: false };
    for objects in 1..=OBJECTS {
        let found = search(m, objects, SESSIONS);
        known.run = known.run.or(found.run);
        known.states.extend(found.states);
        let needed = non_empty(&known.states) + m.carried.max(1);
        known.certain = found.whole && needed <= objects;
        if known.certain || !found.whole {
            break;
        }
    }
    known
}

/// Whether some object comes to the empty state, and how.
fn emptied(m: &Model, states: &BTreeSet<u32>) -> &'static str {
    let created = |c: &Clause| matches!(c.action, Action::New(0));
    let cleared = |c: &Clause| matches!(c.action, Action::Next(_, minus) if minus != 0);
    match (states.contains(&0), m.clauses.iter().any(created)) {
        (true, true) => "reachable, with a line that creates it",
        (true, false) => "reachable by clearing alone",
        (false, true) => "unreachable, with a line that would create it",
        (false, false) if m.clauses.iter().any(cleared) => "unreachable, with lines that clear",
        (false, false) => "unreachable, with no line for it",
    }
}

/// Whether each of two carried variables could be carried by itself, the other standing for any object in each stage.
fn each_alone(m: &Model) -> bool {
    (0..2).all(|other| {
        let mut one = m.clone();
        one.carried = 1;
        for stage in &mut one.stages {
            stage.carried[other] = None;
        }
        known(&one).run.is_some()
    })
}

/// Compares the verdict and the states with what the plain searches know.
fn compare(report: &mut Report, subject: &Subject, m: &Model, answer: Answer, states: &[u32]) {
    let known = known(m);
    let listed: BTreeSet<u32> = states.iter().copied().collect();
    let reached = matches!(answer, Answer::Reached(_));
    let about = || format!("{answer:?} with {listed:?}; plain: {:?} with {:?} in\n{}", known.run, known.states, subject.show());
    if let Some(run) = &known.run {
        let kept = subject.replay(report, run) == Answer::Kept;
        report.check(kept, || format!("the plain run is not kept: {}", about()));
        cover_pair(report, m, run);
    }
    let Some(all) = subject.states() else { return too_many(report, &known, about) };
    report.check(reached || known.run.is_none(), about);
    report.check(known.states.is_subset(&listed), about);
    let verdict = if reached { "reached" } else { "unreached" };
    if let Some(led) = led_about(m, all, TRIES / (all.len() + 1)) {
        report.check(reached == led, || format!("carried objects that are led about say {led}: {}", about()));
        report.cover(&format!("led about: {verdict}"));
    }
    if known.certain {
        report.check(reached == known.run.is_some(), about);
        report.check(listed == known.states, about);
        report.cover(&format!("search: certain and {verdict}"));
        if m.carried == 2 {
            report.cover(&format!("search: certain and {verdict} with a pair"));
            if !reached && each_alone(m) {
                report.cover("search: no pair, though each variable by itself");
            }
        }
        report.cover(&format!("empty state: {}", emptied(m, &known.states)));
    } else {
        report.cover("search: certain in one direction only");
    }
}

/// A text with too many states is refused, whatever its question is; a search that saw all would have seen them.
fn too_many(report: &mut Report, known: &Known, about: impl FnOnce() -> String) {
    report.check(!known.certain, about);
    if non_empty(&known.states) > FOLLOWED {
        report.cover("search: over 127 states found, each by a run");
    }
    if known.run.is_some() {
        report.cover("search: a run is kept where the analysis refuses 15");
    }
}

/// Puts a run to a lent state, place by place, and says where it was broken first.
pub fn place_by_place(report: &mut Report, subject: &Subject, run: &[u32]) -> Option<usize> {
    let mut lent = fresh();
    for (i, n) in run.iter().enumerate() {
        if subject.place(report, &mut lent, *n) != Answer::Kept {
            return Some(i);
        }
    }
    None
}

/// Replays a run whole and place by place.
fn replay_both_ways(report: &mut Report, subject: &Subject, run: &[u32]) {
    let whole = subject.replay(report, run);
    let broken = place_by_place(report, subject, run);
    let agree = match whole {
        Answer::Kept => broken.is_none(),
        Answer::Broken(i) => broken.unwrap_or(run.len()) == i,
        _ => false,
    };
    report.check(agree, || format!("whole {whole:?}, place by place {broken:?}: {run:?} in\n{}", subject.show()));
}

/// How many of the carried objects a run changes after they were met first.
fn moved(m: &Model, run: &[u32]) -> usize {
    let all = play(m, run).sessions;
    let moves = |c: usize| all.windows(2).any(|two| two[0].carried[c].is_some_and(|o| two[0].db[o] != two[1].db[o]));
    (0..m.carried).filter(|c| moves(*c)).count()
}

/// Counts a kept run that carries a pair, by whether the two are one object.
fn cover_pair(report: &mut Report, m: &Model, run: &[u32]) {
    let played = play(m, run);
    let carried = played.sessions.last().expect("a session before the first place").carried;
    if played.broken_at(m, run).is_none() && m.carried == 2 {
        let one = carried[0] == carried[1];
        report.cover(if one { "kept runs whose pair is one object" } else { "kept runs whose pair is two objects" });
    }
}

/// Replays a shown run, the run damaged in one place, plays it on, and shuffles it with others.
fn runs(report: &mut Report, r: &mut Random, subject: &Subject, m: &Model, run: &[u32]) {
    let kept = subject.replay(report, run) == Answer::Kept;
    report.check(kept, || format!("the shown run is not kept: {run:?} in\n{}", subject.show()));
    replay_both_ways(report, subject, run);
    match moved(m, run) {
        0 => {}
        1 => report.cover("shown runs that change one carried object between stages"),
        _ => report.cover("shown runs that change both carried objects between stages"),
    }
    for i in 0..12 {
        let damaged = damage::run(r, run);
        if i % 4 == 0 {
            replay_both_ways(report, subject, &damaged);
        } else {
            subject.replay(report, &damaged);
        }
    }
    play_on(report, r, subject, m, run);
    shuffle_runs(report, r, subject, m, run);
}

/// Damaged texts are answered as the plain reader answers them.
fn texts(report: &mut Report, r: &mut Random, text: &str) {
    for i in 0..10 {
        let subject = Subject::new(&damage::text(r, text));
        let a = subject.analyze(report);
        if let Ok(m) = &subject.read {
            report.cover("damaged texts accepted");
            if i < 3 {
                compare(report, &subject, m, a.answer, &a.states);
            }
        }
        subject.replay(report, &[]);
        onward::refused(report, r, &subject);
        strike::put(report, &subject, &[r.below(12) as u32], WORK);
        games::put(report, &subject, &[5 + i], &[6 + i], WORK);
        ways::put(report, &subject, 1, 2, WORK, RUN);
        subject.place(report, &mut fresh(), 256 * r.below(12) as u32);
    }
}

/// Counts what a random model has.
fn features(report: &mut Report, text: &str, m: &Model, reached: bool) {
    let helper = |c: &Clause| matches!(c.action, Action::Next(..)) && c.body.variables > 1;
    let both = |c: &Clause| matches!(c.action, Action::Next(plus, minus) if plus & minus != 0);
    let wide = |c: &Clause| matches!(c.action, Action::Rule(..)) && c.body.variables == 3;
    let clearing = |c: &Clause| matches!(c.action, Action::Next(_, minus) if minus != 0);
    let verdict = if reached { "reached" } else { "unreached" };
    let mut count = |what: &str, has: bool| {
        if has {
            report.cover(&format!("models {verdict} with {what}"));
        }
    };
    count("a next line that needs a helper", m.clauses.iter().any(helper));
    count("a relation added and removed", m.clauses.iter().any(both));
    count("a line that clears", m.clauses.iter().any(clearing));
    count("a rule of three variables", m.clauses.iter().any(wide));
    count("recursion through pairs", text.contains(" x z) (") && text.contains(" z y))"));
    count("not", text.contains("(not "));
    count("several stages", m.stages.len() > 1);
    count(["no carried variable", "a carried variable", "a carried pair"][m.carried], true);
}

/// A model that the plain search can mostly settle, or a larger one.
fn shape(r: &mut Random, large: bool) -> Shape {
    if large {
        return Shape { states: 5, relations: 6, clauses: 20, stages: 4 };
    }
    Shape { states: r.pick(&[1, 2, 2, 3, 3, 3]), relations: 3, clauses: 4 + r.below(10), stages: r.pick(&[1, 2, 3, 4]) }
}

/// Counts how many states a text has, and how many labels they use.
fn sizes(report: &mut Report, subject: &Subject) {
    let Some(states) = subject.states() else { return report.cover("models with too many states") };
    report.cover(&format!("models with {:3} reachable states", states.len()));
    if states.iter().fold(0, |all, s| all | s).count_ones() > 7 {
        report.cover("models with more than 7 labels in use");
    }
    if non_empty(states) == FOLLOWED {
        let empty = if states.contains(&0) { "and" } else { "without" };
        report.cover(&format!("models with 127 non-empty states {empty} the empty one"));
    }
}

/// One seeded model: the verdict, the states, the shown run.
fn seeded(report: &mut Report, r: &mut Random, text: &str) {
    let subject = Subject::new(text.as_bytes());
    let a = subject.analyze(report);
    let Ok(m) = &subject.read else {
        return report.check(false, || format!("a random model is refused:\n{text}"));
    };
    sizes(report, &subject);
    if subject.states().is_some() {
        features(report, text, m, matches!(a.answer, Answer::Reached(_)));
    }
    compare(report, &subject, m, a.answer, &a.states);
    onward::ask(report, r, &subject, m, &a.run);
    strike::lists(report, r, &subject, m);
    for _ in 0..3 {
        replay_both_ways(report, &subject, &guess::run(r, m));
    }
    if a.states.len() > LONG {
        subject.replay(report, &damage::run(r, &[&a.run[..], &[0]].concat()));
    } else if !a.run.is_empty() {
        runs(report, r, &subject, m, &a.run);
    }
}

/// One object of a seeded model, between two sides and on its shortest ways.
fn one_object(report: &mut Report, r: &mut Random, text: &str) {
    let subject = Subject::new(guided::asking_of_one(r, text).as_bytes());
    if subject.states().is_some_and(|all| all.len() > LONG) && text.matches("(rule ").count() > RULES {
        return;
    }
    games::lists(report, r, &Subject::new(text.as_bytes()));
    games::lists(report, r, &subject);
    ways::pairs(report, r, &subject);
}

/// A model of many labels, with as many states as it aims at.
fn wide_model(report: &mut Report, r: &mut Random) {
    let (text, states) = wide::model(r);
    let subject = Subject::new(text.as_bytes());
    let right = subject.states().map_or(states > FOLLOWED, |all| non_empty(all) == states);
    report.check(right, || format!("a model that aims at {states} states:\n{text}"));
    seeded(report, r, &text);
    if r.chance(LED_ABOUT) {
        one_object(report, r, &text);
    }
}

/// A random model with a question of its own or one that a run meets or nearly meets.
fn any_model(r: &mut Random, large: bool) -> String {
    let shape = shape(r, large);
    if r.chance(60) {
        return guided::model(r, shape);
    }
    model(r, shape)
}

/// Models of ordinary size.
pub fn models(report: &mut Report) {
    for seed in 1..=MODELS {
        let mut r = Random::new(seed);
        let text = any_model(&mut r, false);
        seeded(report, &mut r, &text);
        texts(report, &mut r, &text);
        one_object(report, &mut r, &text);
    }
}

/// Larger models.
pub fn large_models(report: &mut Report) {
    for seed in 1..=LARGE_MODELS {
        let mut r = Random::new(seed + 1_000);
        let text = any_model(&mut r, true);
        seeded(report, &mut r, &text);
        one_object(report, &mut r, &text);
    }
}

/// Models whose questions join two carried variables.
pub fn paired_models(report: &mut Report) {
    for seed in 1..=PAIRED_MODELS {
        let mut r = Random::new(seed + 4_000_000);
        let text = paired::model(&mut r);
        seeded(report, &mut r, &text);
        one_object(report, &mut r, &text);
    }
}

/// Models of many labels, with a chosen number of states.
pub fn wide_models(report: &mut Report) {
    for seed in 1..=WIDE_MODELS {
        wide_model(report, &mut Random::new(seed + 6_000_000));
    }
}

/// Models of many labels, with a number of states that is left to chance.
pub fn loose_models(report: &mut Report) {
    for seed in 1..=LOOSE_MODELS {
        let mut r = Random::new(seed + 7_000_000);
        let shape = Shape { states: 8 + r.below(17), relations: 4, clauses: 10 + r.below(40), stages: 4 };
        let text = if r.chance(60) { guided::model(&mut r, shape) } else { model(&mut r, shape) };
        seeded(report, &mut r, &text);
        one_object(report, &mut r, &text);
    }
}

/// Models in which one object can be led about in many ways.
pub fn roaming_models(report: &mut Report) {
    for seed in 1..=ROAMING_MODELS {
        let mut r = Random::new(seed + 8_000_000);
        let subject = Subject::new(roaming::model(&mut r).as_bytes());
        games::lists(report, &mut r, &subject);
        games::lists(report, &mut r, &subject);
        ways::pairs(report, &mut r, &subject);
    }
}

/// Counters, with long games and ways.
pub fn counters(report: &mut Report) {
    for seed in 1..=COUNTERS {
        let mut r = Random::new(seed + 9_000_000);
        let (text, lines) = counter::any(&mut r);
        let subject = Subject::new(text.as_bytes());
        games::counted(report, &mut r, &subject, &lines);
        ways::pairs(report, &mut r, &subject);
    }
}
