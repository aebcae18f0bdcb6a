// Tumreslo's calls for Rust: those of eon.h, which says what each number means. `include!` this file where they are called.
#[allow(dead_code)]
extern "C" {
    fn eon_analyze(text: *const u8, bytes: usize, work: *mut u8, work_bytes: usize, run: *mut u32, places: usize, out: *mut u32) -> u64;
    #[rustfmt::skip]
    fn eon_from(text: *const u8, bytes: usize, before: *const u32, count: usize, object: u32, work: *mut u8, work_bytes: usize, run: *mut u32, places: usize, out: *mut u32) -> u64;
    fn eon_replay(text: *const u8, bytes: usize, run: *const u32, places: usize, work: *mut u8, work_bytes: usize, stood: *mut u32, numbers: usize) -> u64;
    fn eon_why(text: *const u8, bytes: usize, run: *const u32, places: usize, work: *mut u8, work_bytes: usize, stood: *mut u32, numbers: usize) -> u64;
    fn eon_place(text: *const u8, bytes: usize, session: *mut u32, place: u32, work: *mut u8, work_bytes: usize) -> u64;
    fn eon_handin(handin: *const u8, handin_bytes: usize, run: *mut u32, places: usize) -> u64;
    #[rustfmt::skip]
    fn eon_mark(text: *const u8, bytes: usize, handin: *const u8, handin_bytes: usize, work: *mut u8, work_bytes: usize, run: *mut u32, places: usize, stood: *mut u32, numbers: usize) -> u64;
    fn eon_cure(text: *const u8, bytes: usize, lines: *const u32, count: usize, work: *mut u8, work_bytes: usize, out: *mut u32) -> u64;
    fn eon_tally(text: *const u8, bytes: usize, lines: *const u32, count: usize, work: *mut u8, work_bytes: usize, out: *mut u32) -> u64;
    #[rustfmt::skip]
    fn eon_game(text: *const u8, bytes: usize, attacker: *const u32, attacker_lines: usize, guardian: *const u32, guardian_lines: usize, work: *mut u8, work_bytes: usize, states: *mut u32, moves: *mut u32) -> u64;
    fn eon_way(text: *const u8, bytes: usize, from: u32, to: u32, work: *mut u8, work_bytes: usize, run: *mut u32, places: usize) -> u64;
    fn eon_line(text: *const u8, bytes: usize, i: usize) -> u64;
    fn eon_effect(text: *const u8, bytes: usize, line: u32, state: u32) -> u64;
    fn eon_relation(text: *const u8, bytes: usize, i: usize) -> u64;
    fn eon_literal(line: *const u8, bytes: usize, stage: usize, k: usize) -> u64;
    fn eon_variable(line: *const u8, bytes: usize, stage: usize, j: usize) -> u64;
    fn eon_asbestos(kinds: *const u32, count: usize, port: u32, level: u32, output: *mut u8, output_bytes: usize) -> u64;
}
