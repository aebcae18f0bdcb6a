//! The product's calls, out of its static library.

extern "C" {
    #[allow(improper_ctypes)]
    fn eon_analyze(text: &[u8], work: &mut [u8], run: &mut [u32], out: &mut [u32; 130]) -> u64;
    #[allow(improper_ctypes)]
    fn eon_replay(text: &[u8], run: &[u32], work: &mut [u8], table: &mut [u32]) -> u64;
    #[allow(improper_ctypes)]
    fn eon_from(text: &[u8], before: &[u32], object: u32, work: *mut u8, work_bytes: usize, run: &mut [u32], out: &mut [u32; 130]) -> u64;
    #[allow(improper_ctypes)]
    fn eon_mark(text: &[u8], handin: &[u8], work: &mut [u8], run: &mut [u32], stood: &mut [u32]) -> u64;
    #[allow(improper_ctypes)]
    fn eon_cure(text: &[u8], lines: &[u32], work: &mut [u8], out: &mut [u32; 10]) -> u64;
    #[allow(improper_ctypes)]
    fn eon_tally(text: &[u8], lines: &[u32], work: &mut [u8], out: &mut [u32; 4]) -> u64;
    #[allow(improper_ctypes)]
    fn eon_game(text: &[u8], attacker: &[u32], guardian: &[u32], work: &mut [u8], states: &mut [u32; 128], moves: &mut [u32; 128]) -> u64;
    #[allow(improper_ctypes)]
    fn eon_way(text: &[u8], from: u32, to: u32, work: &mut [u8], run: &mut [u32]) -> u64;
    #[allow(improper_ctypes)]
    fn eon_asbestos(kinds: &[u32; 54], count: usize, port: u32, level: u32, output: &mut [u8]) -> u64;
}

/// What the analysis of a text leaves.
pub struct Analysis {
    pub states: Vec<u32>,
    pub run: Option<Vec<u32>>,
}

/// The product's buffers, lent to each call.
pub struct Buffers {
    work: Vec<u8>,
    run: Vec<u32>,
    stood: Vec<u32>,
}

impl Buffers {
    pub fn new() -> Self {
        Buffers {
            work: vec![0; 65_536],
            run: vec![0; 9_344],
            stood: vec![0; 9_344],
        }
    }

    /// Analyzes an accepted text; none where it has too many states.
    pub fn analyze(&mut self, text: &[u8]) -> Option<Analysis> {
        let mut out = [0; 130];
        let answer = unsafe { eon_analyze(text, &mut self.work, &mut self.run, &mut out) };
        let value = answer as u32;
        let states = out[1..=out[0] as usize].to_vec();
        match (answer >> 32, value >> 16) {
            (0, _) => Some(Analysis { states, run: None }),
            (1, _) => Some(Analysis {
                states,
                run: Some(self.run[..value as usize].to_vec()),
            }),
            (2, 15) => None,
            _ => panic!("refused {} at line {}", value >> 16, value & 65_535),
        }
    }

    /// Replays a run of an accepted text: the place at which it breaks, or none.
    pub fn replay(&mut self, text: &[u8], run: &[u32]) -> Option<usize> {
        let answer = unsafe { eon_replay(text, run, &mut self.work, &mut self.stood) };
        match answer >> 32 {
            3 => None,
            4 => Some(answer as u32 as usize),
            _ => panic!("refused {} at line {}", answer as u32 >> 16, answer & 65_535),
        }
    }
    /// Asks what can still become of an object after some places: the places of the run shown, or none where it is unreached.
    pub fn from(&mut self, text: &[u8], before: &[u32], object: u32) -> Option<usize> {
        let answer = unsafe { eon_from(text, before, object, self.work.as_mut_ptr(), self.work.len(), &mut self.run, &mut [0; 130]) };
        value(answer, 1, 0)
    }

    /// Marks a hand-in: the kind of the answer.
    pub fn mark(&mut self, text: &[u8], handin: &[u8]) -> u64 {
        unsafe { eon_mark(text, handin, &mut self.work, &mut self.run, &mut self.stood) >> 32 }
    }

    /// The fewest of the lines whose removal makes the question unreached, or none where no choice does.
    pub fn cure(&mut self, text: &[u8], lines: &[u32]) -> Option<usize> {
        value(unsafe { eon_cure(text, lines, &mut self.work, &mut [0; 10]) }, 11, 12)
    }

    /// With how many choices of the lines the question is reached.
    pub fn tally(&mut self, text: &[u8], lines: &[u32]) -> u32 {
        let mut out = [0; 4];
        let answer = unsafe { eon_tally(text, lines, &mut self.work, &mut out) };
        assert_eq!(answer >> 32, 13, "refused");
        out[0]
    }

    /// For each reachable state the moves within which the attacker can force it.
    pub fn game(&mut self, text: &[u8], attacker: &[u32], guardian: &[u32]) -> Vec<u32> {
        let mut moves = [0; 128];
        let answer = unsafe { eon_game(text, attacker, guardian, &mut self.work, &mut [0; 128], &mut moves) };
        assert_eq!(answer >> 32, 15, "refused");
        moves[..answer as u32 as usize].to_vec()
    }

    /// The steps of a shortest way from a state to another, or none where there is no way.
    pub fn way(&mut self, text: &[u8], from: u32, to: u32) -> Option<usize> {
        value(unsafe { eon_way(text, from, to, &mut self.work, &mut self.run) }, 16, 17)
    }
}

/// The value of an answer of one kind, or none of the other.
fn value(answer: u64, some: u64, none: u64) -> Option<usize> {
    match answer >> 32 {
        kind if kind == some => Some(answer as u32 as usize),
        kind if kind == none => None,
        kind => panic!("kind {kind}, {} at line {}", answer as u32 >> 16, answer & 65_535),
    }
}

/// The text for processes with Asbestos labels.
pub fn asbestos(kinds: &[[u32; 3]], port: u32, level: u32) -> Vec<u8> {
    let mut cells = [0; 54];
    cells[..3 * kinds.len()].copy_from_slice(&kinds.concat());
    let mut output = vec![0; 16_384];
    let answer = unsafe { eon_asbestos(&cells, kinds.len(), port, level, &mut output) };
    assert_eq!(answer >> 32, 14, "refused");
    output.truncate(answer as u32 as usize);
    output
}
