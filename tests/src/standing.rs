//! Who stood by, checked by hand: document 02, R-1.

use crate::calls::{self, Answer, RUN, WORK};
use crate::meaning::Place;
use crate::report::Report;
use crate::subject::Subject;

/// Nobody stood by: 255 three times.
const NOBODY: u32 = 16_777_215;

/// A text, a kept run, and the numbers of its places.
type Case = (&'static str, Vec<Place>, Vec<u32>);

fn step(line: u32, object: usize) -> Place {
    Place::Step(line, object)
}

fn cases() -> Vec<Case> {
    // the first object with A and without B, the first with B; a `next` line's own variable comes first
    let guards = "(state A)\n(state B)\n(new (A))\n(new (B))\n(new (A B) (A x) (not (B x)) (B y))\n(next x (B) (A) (A x) (B y) (A z))\n(ask ((A x)))\n";
    let guarded = vec![step(3, 0), step(4, 1), step(3, 2), step(5, 3), step(6, 2), step(6, 0), Place::meeting(1, &[3])];
    // a variable twice in a literal, and two variables on one object
    let pairs = "(state A)\n(state B)\n(rel W 2)\n(new (A))\n(new (A B))\n(rule (W x y) (A x) (B y))\n(next z () (B) (W z y) (W y y))\n(ask ((A x)))\n";
    let paired = vec![step(4, 0), step(5, 1), step(5, 2), step(7, 0), step(7, 1), step(7, 2), Place::meeting(1, &[0])];
    // a body without variables, and one whose second variable decides
    let facts = "(state A)\n(state B)\n(rel N 0)\n(rule (N) (A x))\n(new (A))\n(new (B) (N))\n(next x (A) () (B x) (A y) (B z))\n(ask ((A x) (B x)))\n";
    let stated = vec![step(5, 0), step(6, 1), step(6, 2), step(7, 2), Place::meeting(1, &[2])];
    vec![
        (guards, guarded, vec![NOBODY, NOBODY, NOBODY, 511, 2 * 65_536 + 256, 256, 0]),
        (pairs, paired, vec![NOBODY, NOBODY, NOBODY, 511, 65_536 + 511, 2 * 65_536 + 2 * 256 + 255, 0]),
        (facts, stated, vec![NOBODY, NOBODY, NOBODY, 2 * 65_536 + 1, 0]),
    ]
}

/// Each run whole, and broken at each of its places.
pub fn all(report: &mut Report) {
    for (text, places, numbers) in cases() {
        let subject = Subject::new(text.as_bytes());
        let run: Vec<u32> = places.iter().map(Place::encode).collect();
        let whole = calls::replay(text.as_bytes(), &run, WORK, RUN);
        report.check(whole.answer == Answer::Kept && whole.has(&numbers), || {
            format!("{:?} and {:?}, not {numbers:?}, for {run:?} in\n{text}", whole.answer, whole.first(run.len()))
        });
        for i in 0..run.len() {
            let mut broken = run.clone();
            broken[i] = 255;
            subject.replay(report, &broken);
            let given = calls::replay(text.as_bytes(), &broken, WORK, RUN);
            report.check(given.answer == Answer::Broken(i) && given.has(&numbers[..i]), || format!("{:?} at {i} of {run:?} in\n{text}", given.answer));
        }
    }
}
