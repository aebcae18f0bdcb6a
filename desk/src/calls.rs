//! The proved calls (include/eon.h), with buffers of the sizes that they need.

use crate::words::calling;

include!("../../include/eon.rs");

/// The most bytes of a model and of a hand-in that are read: one more than is taken, so that a longer file is refused for its length.
pub const MODEL: usize = 16_385;
pub const HANDIN: usize = 524_289;

const WORK: usize = 65_536;
const RUN: usize = 9_344;
const OUT: usize = 130;
const TEXT: usize = 16_384;
const STRUCK: usize = 10;
const COUNTS: usize = 4;
const STATES: usize = 128;
const SESSION: usize = 260;
const SESSION_OBJECTS: usize = 255;

/// The number that stands for no carried object in a replay state, and in a game for a guardian who holds out for ever.
const NONE: u32 = 255;

/// The most process kinds of a desk for Asbestos labels, and their cells.
pub const KINDS: usize = 18;
pub const KIND_CELLS: usize = 3 * KINDS;

/// The number of the refusal that leaves the verdict open and nothing else: too many states are reachable.
pub const TOO_MANY: u32 = 15;

/// A refusal of the model: its number and line.
#[derive(Clone, Copy)]
pub struct Refusal {
    pub number: u32,
    pub line: u32,
}

/// What a hand-in is worth.
pub enum Mark {
    Refused(Refusal),
    Unreadable { line: usize },
    Right,
    Other { reached: bool },
    Breaks,
}

impl Mark {
    /// Whether the run of the hand-in, if it has one, breaks.
    pub fn breaks(&self) -> bool {
        match self {
            Mark::Refused(r) => r.number == TOO_MANY,
            Mark::Other { reached } => !reached,
            Mark::Breaks => true,
            Mark::Unreadable { .. } | Mark::Right => false,
        }
    }
}

/// What a hand-in says.
pub enum Handin {
    Unreadable {
        line: usize,
    },
    No,
    /// Place i of the run stands on line first + i.
    Yes {
        first: usize,
        run: Vec<u32>,
    },
}

/// Why a place is not allowed.
#[derive(Clone, Copy, PartialEq)]
pub enum Reason {
    /// All stages were met before it.
    Done,
    /// No `new` or `next` line has this number.
    NoLine,
    /// A new object does not get this number.
    NotNext,
    /// There is no such object yet.
    NoObject,
    /// Another stage is the next one.
    OtherStage,
    /// The stage has another number of variables.
    Variables,
    /// A carried variable stands for another object already.
    Carried,
    /// No objects make this literal true together with the plain ones, and those before it.
    Literal(usize),
}

/// A run put to a model: kept, or where it breaks and why; at its end there is no reason but the stages that are left.
pub enum Replay {
    Kept,
    Ends,
    Breaks { place: usize, reason: Reason },
}

/// The analysis of a model.
pub struct Analysis {
    pub states: Vec<u32>,
    pub run: Option<Vec<u32>>,
}

/// A relation that is declared.
pub struct Relation {
    pub name: Vec<u8>,
    pub code: u32,
}

fn refusal(value: u32) -> Refusal {
    Refusal {
        number: value >> 16,
        line: value & 65_535,
    }
}

/// A number that include/eon.h does not have: the library and this program do not belong together.
fn foreign(code: u64) -> ! {
    crate::answer::end(&crate::answer::failure(calling::foreign(code)))
}

/// Analyzes a model.
pub fn analyze(text: &[u8]) -> Result<Analysis, Refusal> {
    let (mut work, mut run, mut out) = (vec![0; WORK], vec![0; RUN], [0; OUT]);
    let code = unsafe { eon_analyze(text.as_ptr(), text.len(), work.as_mut_ptr(), WORK, run.as_mut_ptr(), RUN, out.as_mut_ptr()) };
    analysis(code, &out, run)
}

/// Asks whether an object can still play its part after these places.
pub fn from(text: &[u8], before: &[u32], object: u32) -> Result<Analysis, Refusal> {
    let (mut work, mut run, mut out) = (vec![0; WORK], vec![0; RUN], [0; OUT]);
    let code = unsafe {
        eon_from(
            text.as_ptr(),
            text.len(),
            before.as_ptr(),
            before.len(),
            object,
            work.as_mut_ptr(),
            WORK,
            run.as_mut_ptr(),
            RUN,
            out.as_mut_ptr(),
        )
    };
    analysis(code, &out, run)
}

/// A verdict with the reachable states and the run shown.
fn analysis(code: u64, out: &[u32; OUT], mut run: Vec<u32>) -> Result<Analysis, Refusal> {
    let value = code as u32;
    let states = out[1..=out[0] as usize].to_vec();
    match code >> 32 {
        0 => Ok(Analysis { states, run: None }),
        1 => {
            run.truncate(value as usize);
            Ok(Analysis { states, run: Some(run) })
        }
        2 => Err(refusal(value)),
        _ => foreign(code),
    }
}

/// Marks a hand-in.
pub fn mark(text: &[u8], handin: &[u8]) -> Mark {
    let (mut work, mut run, mut stood) = (vec![0; WORK], vec![0; RUN], vec![0; RUN]);
    let code = unsafe {
        eon_mark(
            text.as_ptr(),
            text.len(),
            handin.as_ptr(),
            handin.len(),
            work.as_mut_ptr(),
            WORK,
            run.as_mut_ptr(),
            RUN,
            stood.as_mut_ptr(),
            RUN,
        )
    };
    let value = code as u32;
    match code >> 32 {
        2 => Mark::Refused(refusal(value)),
        5 => Mark::Unreadable { line: value as usize },
        6 => Mark::Right,
        7 => Mark::Other { reached: value == 1 },
        8 => Mark::Breaks,
        _ => foreign(code),
    }
}

/// Reads a hand-in.
pub fn handin(bytes: &[u8]) -> Handin {
    let mut run = vec![0; RUN];
    let code = unsafe { eon_handin(bytes.as_ptr(), bytes.len(), run.as_mut_ptr(), RUN) };
    let value = code as u32;
    match code >> 32 {
        5 => Handin::Unreadable { line: value as usize },
        9 => Handin::No,
        10 => {
            run.truncate((value >> 16) as usize);
            Handin::Yes {
                first: (value & 65_535) as usize,
                run,
            }
        }
        _ => foreign(code),
    }
}

/// Replays a run over an accepted model: who stood by at each kept step, and whether it is kept, or why not.
pub fn replay(text: &[u8], run: &[u32]) -> (Vec<u32>, Replay) {
    let (mut work, mut stood) = (vec![0; WORK], vec![0; RUN]);
    let code = unsafe {
        eon_why(
            text.as_ptr(),
            text.len(),
            run.as_ptr(),
            run.len(),
            work.as_mut_ptr(),
            WORK,
            stood.as_mut_ptr(),
            RUN,
        )
    };
    let value = code as u32;
    let place = (value >> 16) as usize;
    let answer = match (code >> 32, value >> 8 & 255) {
        (3, _) => Replay::Kept,
        (4, 0) => Replay::Ends,
        (4, kind) => {
            let reason = match kind {
                1 => Reason::Done,
                2 => Reason::NoLine,
                3 => Reason::NotNext,
                4 => Reason::NoObject,
                5 => Reason::OtherStage,
                6 => Reason::Variables,
                7 => Reason::Carried,
                8 => Reason::Literal((value & 255) as usize),
                _ => foreign(code),
            };
            Replay::Breaks { place, reason }
        }
        _ => foreign(code),
    };
    stood.truncate(if let Replay::Breaks { place, .. } = answer { place } else { run.len() });
    (stood, answer)
}

/// Who stood by at each place of a run that is allowed from objects in these states, with no stage met before.
pub fn stood_by(text: &[u8], states: &[u32], run: &[u32]) -> Vec<u32> {
    let mut session = [0; SESSION];
    session[..states.len()].copy_from_slice(states);
    session[SESSION_OBJECTS] = states.len() as u32;
    session[SESSION_OBJECTS + 2] = NONE;
    session[SESSION_OBJECTS + 3] = NONE;
    run.iter().map(|&place| put(text, &mut session, place)).collect()
}

/// Puts an allowed place to a replay state: who stood by.
fn put(text: &[u8], session: &mut [u32; SESSION], place: u32) -> u32 {
    let mut work = vec![0; WORK];
    let code = unsafe { eon_place(text.as_ptr(), text.len(), session.as_mut_ptr(), place, work.as_mut_ptr(), WORK) };
    match code >> 32 {
        3 => code as u32,
        _ => foreign(code),
    }
}

/// What a line makes of an object in a state: whether it creates the object, and the state after it; none where the line is no `new` or `next` line.
pub fn effect(text: &[u8], line: u32, state: u32) -> Option<(bool, u32)> {
    let code = unsafe { eon_effect(text.as_ptr(), text.len(), line, state) };
    match code >> 32 {
        0 => None,
        2 => Some((true, code as u32)),
        3 => Some((false, code as u32)),
        _ => foreign(code),
    }
}

/// Declared relation i of an accepted model.
pub fn relation(text: &[u8], i: usize) -> Option<Relation> {
    let code = unsafe { eon_relation(text.as_ptr(), text.len(), i) };
    let (from, length) = ((code >> 32) as usize, (code >> 16 & 65_535) as usize);
    (length > 0).then(|| Relation {
        name: text[from..from + length].to_vec(),
        code: (code & 65_535) as u32,
    })
}

/// The part of a line that a call gives as where it begins and where it ends, or none.
fn part(line: &[u8], code: u64) -> Option<&[u8]> {
    let (from, to) = ((code >> 32) as usize, (code & 0xffff_ffff) as usize);
    (to > from).then(|| &line[from..to])
}

/// Literal k of a line's body, or of a stage of the question.
pub fn literal(line: &[u8], stage: usize, k: usize) -> Option<&[u8]> {
    part(line, unsafe { eon_literal(line.as_ptr(), line.len(), stage, k) })
}

/// Variable j of a line, or of a stage of the question, in order of first appearance.
pub fn variable(line: &[u8], stage: usize, j: usize) -> Option<&[u8]> {
    part(line, unsafe { eon_variable(line.as_ptr(), line.len(), stage, j) })
}

/// The text for process kinds with Asbestos labels.
pub fn asbestos(kinds: &[u32; KIND_CELLS], count: usize, port: u32, level: u32) -> Result<Vec<u8>, Refusal> {
    let mut output = vec![0; TEXT];
    let code = unsafe { eon_asbestos(kinds.as_ptr(), count, port, level, output.as_mut_ptr(), TEXT) };
    let value = code as u32;
    match code >> 32 {
        2 => Err(refusal(value)),
        14 => {
            output.truncate(value as usize);
            Ok(output)
        }
        _ => foreign(code),
    }
}

/// The fewest of these lines whose removal makes the question unreached, or none where no choice does.
pub fn strike(text: &[u8], lines: &[u32]) -> Result<Option<Vec<u32>>, Refusal> {
    let (mut work, mut out) = (vec![0; WORK], [0; STRUCK]);
    let code = unsafe {
        eon_cure(
            text.as_ptr(),
            text.len(),
            lines.as_ptr(),
            lines.len(),
            work.as_mut_ptr(),
            WORK,
            out.as_mut_ptr(),
        )
    };
    let value = code as u32;
    match code >> 32 {
        2 => Err(refusal(value)),
        11 => Ok(Some(out.iter().copied().take(value as usize).collect())),
        12 => Ok(None),
        _ => foreign(code),
    }
}

/// With how many ways to keep some lines and strike the rest the question is reached and unreached; the reached share in hundredths, and its remainder.
pub struct Tally {
    pub reached: u32,
    pub unreached: u32,
    pub share: u32,
    pub remainder: u32,
}

/// Counts the ways to keep some of these lines and strike the rest.
pub fn tally(text: &[u8], lines: &[u32]) -> Result<Tally, Refusal> {
    let (mut work, mut out) = (vec![0; WORK], [0; COUNTS]);
    let code = unsafe {
        eon_tally(
            text.as_ptr(),
            text.len(),
            lines.as_ptr(),
            lines.len(),
            work.as_mut_ptr(),
            WORK,
            out.as_mut_ptr(),
        )
    };
    let [reached, unreached, share, remainder] = out;
    match code >> 32 {
        2 => Err(refusal(code as u32)),
        13 => Ok(Tally {
            reached,
            unreached,
            share,
            remainder,
        }),
        _ => foreign(code),
    }
}

/// A reachable state of the game's object, and within how many moves the attacker can force it; none where the guardian holds out for ever.
pub struct Outcome {
    pub state: u32,
    pub moves: Option<u32>,
}

/// Solves the game of two sides with these lines.
pub fn game(text: &[u8], attacker: &[u32], guardian: &[u32]) -> Result<Vec<Outcome>, Refusal> {
    let (mut work, mut states, mut moves) = (vec![0; WORK], [0; STATES], [0; STATES]);
    let code = unsafe {
        eon_game(
            text.as_ptr(),
            text.len(),
            attacker.as_ptr(),
            attacker.len(),
            guardian.as_ptr(),
            guardian.len(),
            work.as_mut_ptr(),
            WORK,
            states.as_mut_ptr(),
            moves.as_mut_ptr(),
        )
    };
    let value = code as u32;
    let outcome = |(&state, &moves): (&u32, &u32)| Outcome {
        state,
        moves: (moves != NONE).then_some(moves),
    };
    match code >> 32 {
        2 => Err(refusal(value)),
        15 => Ok(states.iter().zip(&moves).take(value as usize).map(outcome).collect()),
        _ => foreign(code),
    }
}

/// The lines of a shortest way from one state to another, or none where there is no way.
pub fn way(text: &[u8], from: u32, to: u32) -> Result<Option<Vec<u32>>, Refusal> {
    let (mut work, mut run) = (vec![0; WORK], vec![0; RUN]);
    let code = unsafe { eon_way(text.as_ptr(), text.len(), from, to, work.as_mut_ptr(), WORK, run.as_mut_ptr(), RUN) };
    let value = code as u32;
    match code >> 32 {
        2 => Err(refusal(value)),
        16 => {
            run.truncate(value as usize);
            Ok(Some(run))
        }
        17 => Ok(None),
        _ => foreign(code),
    }
}

/// What a clause of a model is.
#[derive(Clone, Copy, PartialEq)]
pub enum Clause {
    Rule,
    New,
    Next,
}

/// Clause i of an accepted model: its line, and what it is.
pub fn clause(text: &[u8], i: usize) -> Option<(usize, Clause)> {
    let code = unsafe { eon_line(text.as_ptr(), text.len(), i) };
    let clause = match code & 3 {
        1 => Clause::Rule,
        2 => Clause::New,
        3 => Clause::Next,
        _ => return None,
    };
    Some(((code >> 2) as usize, clause))
}
