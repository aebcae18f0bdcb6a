//! All that the front end says: each message stands here once, in every language that it speaks.

use std::sync::OnceLock;

/// A language.
#[derive(Clone, Copy)]
pub enum Lang {
    English,
    German,
}

/// The language of this call; it is chosen once, before anything is said.
static CHOSEN: OnceLock<Lang> = OnceLock::new();

/// Makes a function of each message, which says it in the chosen language; a message that lacks one of the languages does not compile.
macro_rules! messages {
    ($($(#[$note:meta])* $name:ident($($item:ident: $kind:ty),*) { en: $en:literal, de: $de:literal $(,)? })*) => {
        $($(#[$note])* pub fn $name($($item: $kind),*) -> String {
            match $crate::words::chosen() {
                $crate::words::Lang::English => format!($en),
                $crate::words::Lang::German => format!($de),
            }
        })*
    };
}

pub mod calling;
pub mod class;
pub mod help;
pub mod marks;
pub mod page;
pub mod questions;
pub mod refusals;
pub mod runs;

/// The language that a word names.
pub fn language(word: &str) -> Option<Lang> {
    match word {
        "en" => Some(Lang::English),
        "de" => Some(Lang::German),
        _ => None,
    }
}

/// Chooses the language.
pub fn speak(lang: Lang) {
    CHOSEN.get_or_init(|| lang);
}

/// The language that was chosen, or English.
pub fn chosen() -> Lang {
    CHOSEN.get().copied().unwrap_or(Lang::English)
}
