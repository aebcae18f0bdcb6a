//! What is wrong with a call, a file or the program.

messages! {
    /// A word of the call that is no text.
    no_text() {
        en: "a name is no text",
        de: "ein Name ist kein Text",
    }
    no_command() {
        en: "no such command; eon --help says how to call it",
        de: "kein solcher Befehl; eon --help sagt, wie der Aufruf lautet",
    }
    no_option(option: &str, command: &str) {
        en: "no option {option}; eon {command} --help says how to call it",
        de: "keine Option {option}; eon {command} --help sagt, wie der Aufruf lautet",
    }
    /// An option whose word is missing.
    no_word(option: &str, command: &str) {
        en: "a word has to follow {option}; eon {command} --help says how to call it",
        de: "auf {option} muss ein Wort folgen; eon {command} --help sagt, wie der Aufruf lautet",
    }
    no_language(word: &str) {
        en: "no language {word}; there are en and de",
        de: "keine Sprache {word}; es gibt en und de",
    }
    other_names(usage: &str, command: &str) {
        en: "other names are needed ({usage}); eon {command} --help says how to call it",
        de: "andere Angaben sind nötig ({usage}); eon {command} --help sagt, wie der Aufruf lautet",
    }
    no_number(word: &str, command: &str) {
        en: "{word} is no number; eon {command} --help says how to call it",
        de: "{word} ist keine Zahl; eon {command} --help sagt, wie der Aufruf lautet",
    }
    folder(name: &str) {
        en: "{name} is a folder",
        de: "{name} ist ein Ordner",
    }
    no_folder(name: &str) {
        en: "{name} is no folder that can be read",
        de: "{name} ist kein lesbarer Ordner",
    }
    not_read(name: &str) {
        en: "{name} cannot be read",
        de: "{name} lässt sich nicht lesen",
    }
    not_written() {
        en: "standard output cannot be written",
        de: "die Standardausgabe lässt sich nicht schreiben",
    }
    /// The library and this program do not belong together.
    foreign(code: u64) {
        en: "the library answered {code}, which is no answer; build it anew",
        de: "die Bibliothek hat {code} geantwortet, was keine Antwort ist; sie muss neu gebaut werden",
    }
    own_text_refused() {
        en: "the library refuses its own text; build it anew",
        de: "die Bibliothek lehnt ihren eigenen Text ab; sie muss neu gebaut werden",
    }
}
