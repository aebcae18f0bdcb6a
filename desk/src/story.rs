//! What happens at the places of a run that is kept.

use crate::calls;
use crate::model::Model;
use std::collections::HashMap;

/// One place of a run.
pub enum Event {
    Step(Step),
    Meeting(Meeting),
}

/// An object is created, or gets another state.
pub struct Step {
    pub line: usize,
    pub object: usize,
    pub creates: bool,
    pub before: u32,
    pub after: u32,
    /// The objects of the line's variables, in order of first appearance.
    pub stood: Vec<usize>,
}

/// A stage is met by objects.
pub struct Meeting {
    pub stage: usize,
    pub objects: Vec<usize>,
}

/// A place of a run by its number (include/eon.h).
pub enum Place {
    Step { line: usize, object: usize },
    Meeting { stage: usize, objects: Vec<usize> },
}

/// The objects in the three lower bytes of a number, up to the first 255.
fn objects(number: u32) -> Vec<usize> {
    [number >> 16, number >> 8, number]
        .iter()
        .map(|n| (n & 255) as usize)
        .take_while(|&o| o != 255)
        .collect()
}

pub fn place(number: u32) -> Place {
    if number >> 31 == 0 {
        Place::Step {
            line: (number >> 8) as usize,
            object: (number & 255) as usize,
        }
    } else {
        Place::Meeting {
            stage: (number >> 24 & 127) as usize,
            objects: objects(number),
        }
    }
}

/// The events of places that are kept from objects in these states on, with those who stood by at each, and the objects' states after them.
pub fn tell(model: &Model, start: &[u32], run: &[u32], stood: &[u32]) -> (Vec<Event>, Vec<u32>) {
    let mut states = start.to_vec();
    let mut effects: HashMap<(usize, u32), Option<(bool, u32)>> = HashMap::new();
    let mut events = Vec::new();
    for (&number, &stood) in run.iter().zip(stood) {
        match place(number) {
            Place::Step { line, object } => {
                let before = states.get(object).copied().unwrap_or(0);
                let effect = *effects
                    .entry((line, before))
                    .or_insert_with(|| calls::effect(&model.bytes, line as u32, before));
                let Some((creates, after)) = effect else { continue };
                if creates {
                    states.push(after);
                } else {
                    states[object] = after;
                }
                events.push(Event::Step(Step {
                    line,
                    object,
                    creates,
                    before: if creates { 0 } else { before },
                    after,
                    stood: objects(stood),
                }));
            }
            Place::Meeting { stage, objects } => events.push(Event::Meeting(Meeting { stage, objects })),
        }
    }
    (events, states)
}
