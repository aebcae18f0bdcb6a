//! Two runs at one desk (document 02, R-11): places of two runs of one text, played on one database in a random order that keeps each run's own.

use crate::calls::{Answer, Lent, CARRIED_OBJECTS, KEPT, MET, OBJECTS, RUN};
use crate::guess;
use crate::meaning::{play, Action, Carried, Facts, Model, Place, Session, NONE};
use crate::random::Random;
use crate::report::Report;
use crate::seeded::place_by_place;
use crate::subject::Subject;

/// The most places that two runs have together to be shuffled; facts are found anew after each.
const LONG: usize = 120;

/// One group at the desk: its run, how far it has come, and the desk's numbers of its objects in order of creation.
struct Group {
    run: Vec<Place>,
    /// Where the run stands by itself, before and after each of its places.
    alone: Vec<Session>,
    played: usize,
    numbers: Vec<usize>,
    met: usize,
    carried: Carried,
    /// All steps of the desk so far, with this group's meetings.
    heard: Vec<Place>,
    /// How many of these were heard when its last place came.
    told: usize,
}

impl Group {
    fn new(m: &Model, run: &[u32]) -> Group {
        let alone = play(m, run).sessions;
        let places = run.iter().take(alone.len() - 1).map(|n| Place::decode(*n).expect("a kept place has a form")).collect();
        Group { run: places, alone, played: 0, numbers: Vec::new(), met: 0, carried: Carried::default(), heard: Vec::new(), told: 0 }
    }

    /// The group's next place, its objects numbered as the desk has them; one that it creates gets the number `next`.
    fn renumbered(&self, next: usize) -> Place {
        let number = |o: usize| self.numbers.get(o).copied().unwrap_or(next);
        match self.run[self.played] {
            Place::Step(line, o) => Place::Step(line, number(o)),
            Place::Meeting(stage, os) => Place::Meeting(stage, os.map(|o| if o == NONE { NONE } else { number(o) })),
        }
    }

    /// What the group sees of the desk.
    fn sees(&self, db: &[u32]) -> Session {
        Session { db: db.to_vec(), met: self.met, carried: self.carried }
    }

    /// Whether the desk has the group's objects in the states that its own run gave, its stages met, and its carried objects.
    fn is_right(&self, db: &[u32]) -> bool {
        let own = &self.alone[self.played];
        let states: Option<Vec<u32>> = self.numbers.iter().map(|n| db.get(*n).copied()).collect();
        let carried = own.carried.map(|c| c.map(|o| self.numbers[o]));
        states.as_ref() == Some(&own.db) && self.met == own.met && self.carried == carried
    }
}

/// Whether a place makes an object.
fn creates(m: &Model, place: Place) -> bool {
    let Place::Step(line, _) = place else { return false };
    m.clauses.iter().any(|c| c.line == line && matches!(c.action, Action::New(_)))
}

/// What one group sees of the desk, as a lent state.
fn lent(s: &Session) -> Lent {
    let mut lent = [0; 260];
    lent[..s.db.len()].copy_from_slice(&s.db);
    lent[OBJECTS] = s.db.len() as u32;
    lent[MET] = s.met as u32;
    for (cell, carried) in CARRIED_OBJECTS.iter().zip(s.carried) {
        lent[*cell] = carried.unwrap_or(NONE) as u32;
    }
    lent[KEPT] = 0;
    lent
}

/// The desk: one database, and two groups.
struct Desk<'a> {
    m: &'a Model,
    db: Vec<u32>,
    facts: Facts,
    groups: [Group; 2],
}

impl Desk<'_> {
    /// Whose turn it is: a random one of those who have a place left.
    fn turn(&self, r: &mut Random) -> Option<usize> {
        let left: Vec<usize> = (0..2).filter(|g| self.groups[*g].played < self.groups[*g].run.len()).collect();
        (!left.is_empty()).then(|| r.pick(&left))
    }

    /// One group plays its next place; it is allowed by the plain meaning, and by the product where the objects have numbers.
    fn play(&mut self, report: &mut Report, subject: &Subject, g: usize) -> bool {
        let place = self.groups[g].renumbered(self.db.len());
        let seen = self.groups[g].sees(&self.db);
        let Some(after) = seen.after(self.m, &self.facts, place) else { return false };
        if after.db.len() <= OBJECTS {
            let kept = subject.place(report, &mut lent(&seen), place.encode()) == Answer::Kept;
            report.check(kept, || format!("{place:?} is not kept at the desk {seen:?} in\n{}", subject.show()));
        }
        if creates(self.m, place) {
            self.groups[g].numbers.push(self.db.len());
        }
        if after.db != self.db {
            self.facts = self.m.facts(&after.db);
        }
        self.db = after.db;
        let group = &mut self.groups[g];
        group.met = after.met;
        group.carried = after.carried;
        group.played += 1;
        self.hear(g, place);
        true
    }

    /// A step is heard by both groups, a meeting by the one that met.
    fn hear(&mut self, g: usize, place: Place) {
        for (i, group) in self.groups.iter_mut().enumerate() {
            if i == g || matches!(place, Place::Step(..)) {
                group.heard.push(place);
            }
            if i == g {
                group.told = group.heard.len();
            }
        }
    }

    /// Whether the objects of the desk are those of the two groups, each of one of them, in the order of their creation, and all is as their own runs gave it.
    fn is_right(&self) -> bool {
        let mut all: Vec<usize> = self.groups.iter().flat_map(|g| g.numbers.iter().copied()).collect();
        let rising = self.groups.iter().all(|g| g.numbers.windows(2).all(|two| two[0] < two[1]));
        all.sort_unstable();
        rising && all.iter().copied().eq(0..self.db.len()) && self.groups.iter().all(|g| g.is_right(&self.db))
    }
}

/// What one group heard up to its last place is a run of the text: the product keeps each of its places.
fn replay(report: &mut Report, subject: &Subject, group: &Group, objects: usize) {
    let heard = &group.heard[..group.told];
    if objects > OBJECTS || heard.len() > RUN {
        return report.cover("shuffles beyond 255 objects");
    }
    let run: Vec<u32> = heard.iter().map(Place::encode).collect();
    let whole = subject.replay(report, &run);
    let good = whole == Answer::Kept || whole == Answer::Broken(run.len());
    report.check(good, || format!("{whole:?}: what a group heard, {run:?}, in\n{}", subject.show()));
    let broken = place_by_place(report, subject, &run);
    report.check(broken.is_none(), || format!("broken at {broken:?}: what a group heard, {run:?}, in\n{}", subject.show()));
    report.cover(if whole == Answer::Kept { "shuffles that a group heard as a kept run" } else { "shuffles that a group heard up to its last place" });
}

/// Shuffles two runs once.
fn shuffle(report: &mut Report, r: &mut Random, subject: &Subject, m: &Model, runs: [&[u32]; 2]) {
    let groups = runs.map(|run| Group::new(m, run));
    let mut desk = Desk { m, db: Vec::new(), facts: m.facts(&[]), groups };
    while let Some(g) = desk.turn(r) {
        let allowed = desk.play(report, subject, g);
        let right = allowed && desk.is_right();
        report.check(right, || format!("allowed {allowed}: {runs:?} shuffled, at {:?} in\n{}", desk.db, subject.show()));
        if !right {
            return;
        }
    }
    for group in &desk.groups {
        replay(report, subject, group, desk.db.len());
    }
    report.cover("shuffles");
    if desk.groups.iter().all(|g| !g.numbers.is_empty()) {
        report.cover("shuffles of two runs with objects");
    }
    if desk.groups.iter().all(|g| g.met > 0) {
        report.cover("shuffles of two runs that meet stages");
    }
}

/// Shuffles a shown run with itself and with guessed runs.
pub fn shuffle_runs(report: &mut Report, r: &mut Random, subject: &Subject, m: &Model, run: &[u32]) {
    let guessed = [guess::run(r, m), guess::run(r, m)];
    for two in [[run, run], [run, &guessed[0]], [&guessed[0], &guessed[1]]] {
        if two[0].len() + two[1].len() <= LONG {
            shuffle(report, r, subject, m, two);
        }
    }
}

/// Two runs that make 200 objects each, and meet a stage with their last.
pub fn beyond(report: &mut Report) {
    let text = "(state A)\n(state B)\n(new (A))\n(next x (B) () (A x))\n(ask ((A x)) ((B x)))\n";
    let subject = Subject::new(text.as_bytes());
    let m = subject.read.as_ref().expect("the text is accepted");
    let mut places: Vec<Place> = (0..200).map(|o| Place::Step(3, o)).collect();
    places.extend([Place::meeting(1, &[199]), Place::Step(4, 199), Place::meeting(2, &[199])]);
    let run: Vec<u32> = places.iter().map(Place::encode).collect();
    shuffle(report, &mut Random::new(11), &subject, m, [&run, &run]);
}
