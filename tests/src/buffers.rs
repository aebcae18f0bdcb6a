//! Buffers of every interesting size: row 12, the order of rows 1, 12 and 14, and what the buffers hold after the call.

use crate::calls::{Answer, KEPT, RUN, WORK};
use crate::cases::long_text;
use crate::report::Report;
use crate::subject::{fresh, Subject};
use crate::wide;

const AREAS: [usize; 7] = [0, 1, 32_768, WORK - 1, WORK, WORK + 1, 70_000];
const TABLES: [usize; 6] = [0, 1, RUN - 1, RUN, RUN + 1, 10_000];

/// A reached text, an unreached one, texts of several rows, and one with too many states.
fn texts() -> Vec<Vec<u8>> {
    let small: [&[u8]; 9] = [
        b"(state A)\n(new (A))\n(ask ((A x)))\n",
        b"(state A)\n(new (A) (A x))\n(ask ((A x)))\n",
        b"(rel N 0)\n(rule (N))\n(ask ((N)))\n",
        b"",
        b"(state A!)\n",
        b"(state A)\n(state A)\n",
        b"(state A)\n",
        b"(state A)\n(rel W 2)\n(ask ((W x y) (A z)) ((W x y) (A z)))\n",
        b"(state A)\n(ask ((A x)))\n\n",
    ];
    let mut all: Vec<Vec<u8>> = small.iter().map(|t| t.to_vec()).collect();
    all.push(long_text(16_384));
    all.push(long_text(16_385));
    all.push(wide::free(8, "(ask ((L0 x)))\n").into_bytes());
    all
}

/// The analysis with every pair of sizes.
fn analyses(report: &mut Report, subject: &Subject) {
    for work in AREAS {
        for places in TABLES {
            let a = subject.analyze_with(report, work, places);
            let row_12 = a.answer == Answer::Refused(12, 0);
            let expected = subject.read.as_ref().err() != Some(&(1, 0)) && (work < WORK || places < RUN);
            report.check(row_12 == expected, || format!("{:?} with {work} bytes and {places} places", a.answer));
        }
    }
}

/// The replay with every size of the work area, of the run and of the table.
fn replays(report: &mut Report, subject: &Subject) {
    for (work, numbers) in AREAS.iter().flat_map(|work| TABLES.map(|numbers| (*work, numbers))) {
        for places in TABLES {
            let answer = subject.replay_with(report, &vec![512; places], work, numbers);
            let row_1 = subject.read.as_ref().err() == Some(&(1, 0));
            let row = if row_1 {
                1
            } else if work < WORK || numbers < RUN {
                12
            } else if places > RUN {
                14
            } else {
                0
            };
            let right = match answer {
                Answer::Refused(number, 0) => number == row,
                _ => row == 0,
            };
            report.check(right, || format!("{answer:?} with {work} bytes, {places} places and {numbers} numbers"));
        }
    }
    for work in AREAS {
        for kept in [0, 9_343, 9_344, 9_345] {
            let mut lent = fresh();
            lent[KEPT] = kept;
            subject.place_with(report, &mut lent, 512, work);
        }
    }
}

/// Runs all sizes.
pub fn all(report: &mut Report) {
    for text in texts() {
        let subject = Subject::new(&text);
        analyses(report, &subject);
        replays(report, &subject);
    }
}
