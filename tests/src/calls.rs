//! The product's calls, with buffers that are filled with a pattern before and looked at whole after.

include!("../../include/eon.rs");

/// The work bytes that a call needs, and uses.
pub const WORK: usize = 65_536;
/// The places that a run table lent for writing needs.
pub const RUN: usize = 9_344;
/// The most states that are listed: 127 and the empty one.
const LISTED: usize = 128;
/// The cells beside an answer of the analysis: the number of states, the states, the number of the last place.
const OUT: usize = LISTED + 2;
/// What stands behind each lent buffer, and must not be touched.
const BEHIND: usize = 64;

/// A lent replay state: 255 atomic states, then the number of objects, the stages met, the first and the second carried object, and the places kept.
pub type Lent = [u32; 260];
/// The cells behind the atomic states.
pub const OBJECTS: usize = 255;
pub const MET: usize = 256;
pub const CARRIED_OBJECTS: [usize; 2] = [257, 258];
pub const KEPT: usize = 259;

#[derive(Clone, Copy, Debug, PartialEq)]
pub enum Answer {
    Unreached,
    Reached(usize),
    Refused(u32, u32),
    Kept,
    Broken(usize),
    /// A number that is no answer.
    Unknown(u64),
}

impl Answer {
    fn decode(code: u64) -> Answer {
        let value = code as u32;
        match code >> 32 {
            0 if value == 0 => Answer::Unreached,
            1 => Answer::Reached(value as usize),
            2 => Answer::Refused(value >> 16, value & 65_535),
            3 if value == 0 => Answer::Kept,
            4 => Answer::Broken(value as usize),
            _ => Answer::Unknown(code),
        }
    }

    fn is_refusal(&self) -> bool {
        matches!(self, Answer::Refused(..))
    }

    /// Whether the work area is used before the answer is known: after every answer but a refusal, and after 15 to 18 and 23.
    fn wipes(&self) -> bool {
        !self.is_refusal() || matches!(self, Answer::Refused(15..=18 | 23, _))
    }
}

/// A work area with a pattern.
struct Area {
    bytes: Vec<u8>,
    size: usize,
}

fn work_pattern(i: usize) -> u8 {
    i as u8 | 128
}

impl Area {
    fn new(size: usize) -> Area {
        Area { bytes: (0..size + BEHIND).map(work_pattern).collect(), size }
    }

    fn pointer(&mut self) -> *mut u8 {
        self.bytes.as_mut_ptr()
    }

    /// Whether the area is as documents 01 and 02 have it after the answer: untouched after a refusal that needs the lines alone, else 65,536 zeros and
    /// the rest untouched.
    fn is_right(&self, answer: &Answer) -> bool {
        let wiped = if answer.wipes() { WORK.min(self.size) } else { 0 };
        self.bytes[..wiped].iter().all(|b| *b == 0) && (wiped..self.bytes.len()).all(|i| self.bytes[i] == work_pattern(i))
    }
}

fn run_pattern(i: usize) -> u32 {
    0x5A00_00A5 ^ (i as u32).wrapping_mul(2_654_435_761)
}

/// What the analysis left.
pub struct Analysis {
    pub answer: Answer,
    /// The places that it says it wrote.
    pub run: Vec<u32>,
    pub states: Vec<u32>,
    /// Whether the work area is as it should be.
    pub area: bool,
    /// Whether the run table is untouched behind the places written.
    pub table: bool,
    /// Whether the states rise, nothing stands behind them, and the last place is the run's.
    pub shape: bool,
}

/// Analyzes a text with buffers of these sizes.
pub fn analyze(text: &[u8], work: usize, places: usize) -> Analysis {
    analyzed(work, places, |area, table, out| unsafe { eon_analyze(text.as_ptr(), text.len(), area, work, table, places, out) })
}

/// Asks what can become of an object after the places before, with buffers of these sizes.
pub fn from_here(text: &[u8], before: &[u32], object: u32, work: usize, places: usize) -> Analysis {
    analyzed(work, places, |area, table, out| unsafe {
        eon_from(text.as_ptr(), text.len(), before.as_ptr(), before.len(), object, area, work, table, places, out)
    })
}

/// What a call that is answered like the analysis left.
fn analyzed(work: usize, places: usize, call: impl FnOnce(*mut u8, *mut u32, *mut u32) -> u64) -> Analysis {
    let mut area = Area::new(work);
    let mut table: Vec<u32> = (0..places + BEHIND).map(run_pattern).collect();
    let mut out = [0xDEAD_BEEFu32; OUT];
    let answer = Answer::decode(call(area.pointer(), table.as_mut_ptr(), out.as_mut_ptr()));
    let written = if let Answer::Reached(n) = answer { n.min(places) } else { 0 };
    let count = (out[0] as usize).min(LISTED);
    Analysis {
        answer,
        run: table[..written].to_vec(),
        states: out[1..=count].to_vec(),
        area: area.is_right(&answer),
        table: (written..table.len()).all(|i| table[i] == run_pattern(i)),
        shape: shape(&answer, &out, table[..written].last().copied()),
    }
}

/// Whether what stands beside the answer has its form.
fn shape(answer: &Answer, out: &[u32; OUT], last: Option<u32>) -> bool {
    let count = out[0] as usize;
    if answer.is_refusal() {
        return out.iter().all(|n| *n == 0);
    }
    count <= LISTED && (2..=count).all(|i| out[i - 1] < out[i]) && out[count + 1..=LISTED].iter().all(|n| *n == 0) && out[LISTED + 1] == last.unwrap_or(0)
}

/// What the replay left.
pub struct Replay {
    pub answer: Answer,
    pub area: bool,
    table: Vec<u32>,
}

impl Replay {
    /// Whether the table has these numbers in its first places, and is untouched behind them.
    pub fn has(&self, numbers: &[u32]) -> bool {
        self.table.starts_with(numbers) && (numbers.len()..self.table.len()).all(|i| self.table[i] == run_pattern(i))
    }

    /// The numbers in the first places of the table.
    pub fn first(&self, n: usize) -> &[u32] {
        &self.table[..n.min(self.table.len())]
    }
}

/// Replays a run with a work area and a table of these sizes.
pub fn replay(text: &[u8], run: &[u32], work: usize, numbers: usize) -> Replay {
    let mut area = Area::new(work);
    let mut table: Vec<u32> = (0..numbers + BEHIND).map(run_pattern).collect();
    let code = unsafe { eon_replay(text.as_ptr(), text.len(), run.as_ptr(), run.len(), area.pointer(), work, table.as_mut_ptr(), numbers) };
    let answer = Answer::decode(code);
    Replay { answer, area: area.is_right(&answer), table }
}

/// What one place left: beside kept stands the number of those who stood by.
pub struct Put {
    pub answer: Answer,
    pub stood: Option<u32>,
    pub area: bool,
}

/// Puts one place to a lent state, which is updated.
pub fn place(text: &[u8], lent: &mut Lent, place: u32, work: usize) -> Put {
    let mut area = Area::new(work);
    let code = unsafe { eon_place(text.as_ptr(), text.len(), lent.as_mut_ptr(), place, area.pointer(), work) };
    let kept = code >> 32 == 3;
    let answer = if kept { Answer::Kept } else { Answer::decode(code) };
    Put { answer, stood: kept.then_some(code as u32), area: area.is_right(&answer) }
}

/// The line of clause i and its kind, as one number.
pub fn line(text: &[u8], i: usize) -> u64 {
    unsafe { eon_line(text.as_ptr(), text.len(), i) }
}

/// What the reading of a hand-in left.
pub struct Handin {
    pub code: u64,
    table: Vec<u32>,
}

impl Handin {
    /// Whether the table has these places first, and is untouched behind them.
    pub fn has(&self, places: &[u32]) -> bool {
        self.table.starts_with(places) && (places.len()..self.table.len()).all(|i| self.table[i] == run_pattern(i))
    }
}

/// Reads a hand-in with a table of this size.
pub fn handin(bytes: &[u8], places: usize) -> Handin {
    let mut table: Vec<u32> = (0..places + BEHIND).map(run_pattern).collect();
    let code = unsafe { eon_handin(bytes.as_ptr(), bytes.len(), table.as_mut_ptr(), places) };
    Handin { code, table }
}

/// What a mark left.
pub struct Mark {
    pub code: u64,
    /// Whether the work area is untouched, and whether it is wiped.
    pub untouched: bool,
    pub wiped: bool,
    run: Vec<u32>,
    stood: Vec<u32>,
}

impl Mark {
    /// Whether the tables have these places and numbers first, and are untouched behind them.
    pub fn has(&self, places: &[u32], numbers: &[u32]) -> bool {
        let table = |t: &[u32], first: &[u32]| t.starts_with(first) && (first.len()..t.len()).all(|i| t[i] == run_pattern(i));
        table(&self.run, places) && table(&self.stood, numbers)
    }
}

/// Marks a hand-in with buffers of these sizes.
pub fn mark(text: &[u8], handin: &[u8], work: usize, places: usize, numbers: usize) -> Mark {
    let mut area = Area::new(work);
    let table = |n: usize| (0..n + BEHIND).map(run_pattern).collect::<Vec<u32>>();
    let (mut run, mut stood) = (table(places), table(numbers));
    let code = unsafe {
        eon_mark(text.as_ptr(), text.len(), handin.as_ptr(), handin.len(), area.pointer(), work, run.as_mut_ptr(), places, stood.as_mut_ptr(), numbers)
    };
    Mark { code, untouched: area.is_right(&Answer::Refused(0, 0)), wiped: area.is_right(&Answer::Kept), run, stood }
}

/// Replays a run and says why it breaks, with a work area and a table of these sizes: the number of the answer, beside what a replay leaves.
pub fn why(text: &[u8], run: &[u32], work: usize, numbers: usize) -> (u64, Replay) {
    let mut area = Area::new(work);
    let mut table: Vec<u32> = (0..numbers + BEHIND).map(run_pattern).collect();
    let code = unsafe { eon_why(text.as_ptr(), text.len(), run.as_ptr(), run.len(), area.pointer(), work, table.as_mut_ptr(), numbers) };
    let answer = if code >> 32 == 2 { Answer::decode(code) } else { Answer::Kept };
    (code, Replay { answer, area: area.is_right(&answer), table })
}

/// What a line makes of an object in a state.
pub fn effect(text: &[u8], line: u32, state: u32) -> u64 {
    unsafe { eon_effect(text.as_ptr(), text.len(), line, state) }
}

/// Declared relation i: where its name begins, its length and its code.
pub fn relation(text: &[u8], i: usize) -> (usize, usize, u32) {
    let code = unsafe { eon_relation(text.as_ptr(), text.len(), i) };
    ((code >> 32) as usize, (code >> 16 & 65_535) as usize, (code & 65_535) as u32)
}

/// Where literal k of a line, or of a stage of it, begins and ends.
pub fn literal(line: &[u8], stage: usize, k: usize) -> (usize, usize) {
    let code = unsafe { eon_literal(line.as_ptr(), line.len(), stage, k) };
    ((code >> 32) as usize, code as u32 as usize)
}

/// Where the name of variable j of a line, or of a stage of it, begins and ends.
pub fn variable(line: &[u8], stage: usize, j: usize) -> (usize, usize) {
    let code = unsafe { eon_variable(line.as_ptr(), line.len(), stage, j) };
    ((code >> 32) as usize, code as u32 as usize)
}

/// What striking lines answers.
#[derive(Debug, PartialEq)]
pub enum Cure {
    Strike(Vec<u32>),
    Nothing,
    Refused(u32, u32),
    /// A number that is no answer, or cells that do not fit it.
    Unknown(u64),
}

/// What counting the choices answers.
#[derive(Debug, PartialEq)]
pub enum Tally {
    Count { reached: u32, unreached: u32, share: u32, remainder: u32 },
    Refused(u32, u32),
    Unknown(u64),
}

/// The cells beside the answer of `eon_cure`, and beside that of `eon_tally`.
const STRUCK: usize = 10;
const COUNTS: usize = 4;

/// Whether a work area is right after a code of these calls: wiped unless it is a refusal that leaves it.
fn left_right(area: &Area, code: u64) -> bool {
    let answer = if code >> 32 == 2 { Answer::decode(code) } else { Answer::Unreached };
    area.is_right(&answer)
}

/// Asks for the fewest lines to strike, and whether the work area is right.
pub fn cure(text: &[u8], lines: &[u32], work: usize) -> (Cure, bool) {
    let mut area = Area::new(work);
    let mut out = [0xDEAD_BEEFu32; STRUCK];
    let code = unsafe { eon_cure(text.as_ptr(), text.len(), lines.as_ptr(), lines.len(), area.pointer(), work, out.as_mut_ptr()) };
    let value = code as u32;
    let count = if code >> 32 == 11 { value as usize } else { 0 };
    let clean = count <= STRUCK && out[count..].iter().all(|n| *n == 0);
    let answer = match code >> 32 {
        2 if clean => Cure::Refused(value >> 16, value & 65_535),
        11 if clean => Cure::Strike(out[..count].to_vec()),
        12 if clean && value == 0 => Cure::Nothing,
        _ => Cure::Unknown(code),
    };
    (answer, left_right(&area, code))
}

/// The bytes that the output of a desk for Asbestos labels needs.
pub const TEXT: usize = 16_384;
/// The most process kinds that it takes, and their cells: the send level, the receive level and the mark of each.
pub const KINDS: usize = 18;
pub type Kinds = [u32; 3 * KINDS];

/// What a desk left: the text or the refusal, and whether the output is untouched behind it.
pub struct Desk {
    pub text: Result<Vec<u8>, Answer>,
    pub rest: bool,
}

/// Writes the text for the first kinds, a port level and an asked receive level into an output of this size.
pub fn asbestos(kinds: &Kinds, count: usize, port: u32, level: u32, room: usize) -> Desk {
    let mut output: Vec<u8> = (0..room + BEHIND).map(work_pattern).collect();
    let code = unsafe { eon_asbestos(kinds.as_ptr(), count, port, level, output.as_mut_ptr(), room) };
    let written = if code >> 32 == 14 { (code as u32 as usize).min(room) } else { 0 };
    let rest = (written..output.len()).all(|i| output[i] == work_pattern(i));
    output.truncate(written);
    Desk { text: if code >> 32 == 14 { Ok(output) } else { Err(Answer::decode(code)) }, rest }
}

/// Counts the choices of lines, and says whether the work area is right.
pub fn tally(text: &[u8], lines: &[u32], work: usize) -> (Tally, bool) {
    let mut area = Area::new(work);
    let mut out = [0xDEAD_BEEFu32; COUNTS];
    let code = unsafe { eon_tally(text.as_ptr(), text.len(), lines.as_ptr(), lines.len(), area.pointer(), work, out.as_mut_ptr()) };
    let value = code as u32;
    let answer = match code >> 32 {
        2 if out == [0; COUNTS] => Tally::Refused(value >> 16, value & 65_535),
        13 if value == 0 => Tally::Count { reached: out[0], unreached: out[1], share: out[2], remainder: out[3] },
        _ => Tally::Unknown(code),
    };
    (answer, left_right(&area, code))
}

/// What a game answers: each reachable state with the moves within which the attacker can force it, and none where the guardian can hold out.
#[derive(Debug, PartialEq)]
pub enum Game {
    Told(Vec<(u32, Option<u32>)>),
    Refused(u32, u32),
    /// A number that is no answer, or cells that do not fit it.
    Unknown(u64),
}

/// What stands for the moves where the guardian can hold out.
const HELD: u32 = 255;

/// Whether a table of states has nothing behind so many cells, and is untouched behind its last one.
fn ends(cells: &[u32; LISTED + BEHIND], count: usize) -> bool {
    count <= LISTED && cells[count..LISTED].iter().all(|n| *n == 0) && cells[LISTED..].iter().all(|n| *n == 0xDEAD_BEEF)
}

/// Asks who can force the outcome where the attacker and the guardian have these lines, and whether the work area is right.
pub fn game(text: &[u8], attacker: &[u32], guardian: &[u32], work: usize) -> (Game, bool) {
    let mut area = Area::new(work);
    let [mut states, mut moves] = [[0xDEAD_BEEFu32; LISTED + BEHIND]; 2];
    let (bytes, size) = (text.as_ptr(), text.len());
    let (first, second) = (attacker.as_ptr(), guardian.as_ptr());
    let code = unsafe { eon_game(bytes, size, first, attacker.len(), second, guardian.len(), area.pointer(), work, states.as_mut_ptr(), moves.as_mut_ptr()) };
    let value = code as u32;
    let count = if code >> 32 == 15 { value as usize } else { 0 };
    let clean = ends(&states, count) && ends(&moves, count);
    let told = || (0..count).map(|i| (states[i], (moves[i] != HELD).then_some(moves[i]))).collect();
    let answer = match code >> 32 {
        2 if clean => Game::Refused(value >> 16, value & 65_535),
        15 if clean => Game::Told(told()),
        _ => Game::Unknown(code),
    };
    (answer, left_right(&area, code))
}

/// What the question for the shortest way answers: the lines of its steps, or that there is no way.
#[derive(Debug, PartialEq)]
pub enum Way {
    Lines(Vec<u32>),
    Nowhere,
    Refused(u32, u32),
    Unknown(u64),
}

/// The most steps of a way.
const STEPS: usize = 127;

/// What the question for the shortest way left.
pub struct Walked {
    pub answer: Way,
    /// Whether the work area is as it should be.
    pub area: bool,
    /// Whether the run table is untouched behind the lines written.
    pub table: bool,
}

/// Asks for the shortest way from a state to a state with buffers of these sizes.
pub fn way(text: &[u8], from: u32, to: u32, work: usize, places: usize) -> Walked {
    let mut area = Area::new(work);
    let mut table: Vec<u32> = (0..places + BEHIND).map(run_pattern).collect();
    let code = unsafe { eon_way(text.as_ptr(), text.len(), from, to, area.pointer(), work, table.as_mut_ptr(), places) };
    let value = code as u32;
    let steps = if code >> 32 == 16 { (value as usize).min(places) } else { 0 };
    let answer = match code >> 32 {
        2 => Way::Refused(value >> 16, value & 65_535),
        16 if value as usize <= STEPS => Way::Lines(table[..steps].to_vec()),
        17 if value == 0 => Way::Nowhere,
        _ => Way::Unknown(code),
    };
    Walked { answer, area: left_right(&area, code), table: (steps..table.len()).all(|i| table[i] == run_pattern(i)) }
}
