//! Files of process kinds with Asbestos labels.

use crate::calls::{KINDS, KIND_CELLS};

/// What a file says: the cells of its first kinds, how many it has, the port level and the asked receive level.
pub struct System {
    pub kinds: [u32; KIND_CELLS],
    pub count: usize,
    pub port: u32,
    pub asked: u32,
}

/// Why a file says no system.
pub enum Fault {
    /// This line has none of the forms, or says again what is said once.
    Line(usize),
    /// It has no line that begins with this word.
    Missing(&'static str),
}

/// The number of a level: star is 0, and level n is n + 1; whether there is such a level is for the call to say.
fn number(word: &str) -> Option<u32> {
    if word == "star" {
        return Some(0);
    }
    let digits = !word.is_empty() && word.bytes().all(|b| b.is_ascii_digit());
    digits.then(|| word.parse::<u32>().unwrap_or(u32::MAX).saturating_add(1))
}

/// Takes one more line; a line that is empty or begins with # says nothing.
fn take(system: &mut System, port: &mut Option<u32>, asked: &mut Option<u32>, line: &str) -> Option<()> {
    let words: Vec<&str> = line.split_whitespace().collect();
    match words.as_slice() {
        [] => {}
        [first, ..] if first.starts_with('#') => {}
        ["port", level] if port.is_none() => *port = Some(number(level)?),
        ["asked", level] if asked.is_none() => *asked = Some(number(level)?),
        ["kind", send, receive, mark @ ..] if mark.is_empty() || mark == ["marked"] => {
            let cells = [number(send)?, number(receive)?, mark.len() as u32];
            if system.count < KINDS {
                system.kinds[3 * system.count..3 * system.count + 3].copy_from_slice(&cells);
            }
            system.count += 1;
        }
        _ => return None,
    }
    Some(())
}

/// Reads a file.
pub fn read(bytes: &[u8]) -> Result<System, Fault> {
    let mut system = System {
        kinds: [0; KIND_CELLS],
        count: 0,
        port: 0,
        asked: 0,
    };
    let (mut port, mut asked) = (None, None);
    for (i, line) in String::from_utf8_lossy(bytes).lines().enumerate() {
        take(&mut system, &mut port, &mut asked, line).ok_or(Fault::Line(i + 1))?;
    }
    system.port = port.ok_or(Fault::Missing("port"))?;
    system.asked = asked.ok_or(Fault::Missing("asked"))?;
    Ok(system)
}

/// A level as the paper writes it.
pub fn level(number: u32) -> String {
    if number == 0 {
        return "star".to_string();
    }
    (number - 1).to_string()
}
