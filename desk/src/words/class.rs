//! The table of a class.

messages! {
    right() { en: "right", de: "richtig" }
    wrong() { en: "wrong", de: "falsch" }
    refused() { en: "refused", de: "abgelehnt" }
    unreadable() { en: "unreadable", de: "unlesbar" }
    incomplete() { en: "incomplete", de: "unvollständig" }
    no_file() { en: "no file", de: "keine Datei" }
}

messages! {
    head_name() { en: "name", de: "Name" }
    head_mark() { en: "mark", de: "Bewertung" }
    head_own() { en: "own model", de: "eigenes Modell" }
    head_given() { en: "given model", de: "gegebenes Modell" }
    head_why() { en: "where and why", de: "wo und warum" }
    by_own(why: &str) { en: "own model: {why}", de: "eigenes Modell: {why}" }
    by_given(why: &str) { en: "given model: {why}", de: "gegebenes Modell: {why}" }
    says_no() {
        en: "says no, but a run meets the stages",
        de: "sagt no, aber ein Lauf erfüllt die Stufen",
    }
    says_yes() {
        en: "says yes, but no run meets the stages",
        de: "sagt yes, aber kein Lauf erfüllt die Stufen",
    }
    breaks_at(line: usize, text: &str, why: &str) {
        en: "line {line} {text}: {why}",
        de: "Zeile {line} {text}: {why}",
    }
    ends_early(line: usize, stage: usize) {
        en: "ends after line {line}, and stage {stage} is left",
        de: "endet nach Zeile {line}, und Stufe {stage} bleibt übrig",
    }
    refused_why(number: u32, reason: &str) {
        en: "the model is refused ({number}): {reason}",
        de: "das Modell ist abgelehnt ({number}): {reason}",
    }
    refused_line_why(number: u32, line: usize, text: &str, reason: &str) {
        en: "the model is refused ({number}), line {line} {text}: {reason}",
        de: "das Modell ist abgelehnt ({number}), Zeile {line} {text}: {reason}",
    }
    unreadable_why(line: usize, text: &str) {
        en: "line {line} '{text}' is no verdict and no place",
        de: "Zeile {line} '{text}' ist kein Urteil und keine Stelle",
    }
    too_long() { en: "has over 524,288 bytes", de: "hat über 524.288 Bytes" }
    missing(name: &str) { en: "{name} is missing", de: "{name} fehlt" }
    not_ordinary(name: &str) { en: "{name} is no ordinary file", de: "{name} ist keine gewöhnliche Datei" }
}

messages! {
    counts(all: usize, right: usize, wrong: usize, refused: usize, unreadable: usize, incomplete: usize, no_file: usize) {
        en: "{all} in all: {right} right, {wrong} wrong, {refused} refused, {unreadable} unreadable, {incomplete} incomplete, {no_file} without a readable file.",
        de: "{all} insgesamt: {right} richtig, {wrong} falsch, {refused} abgelehnt, {unreadable} unlesbar, {incomplete} unvollständig, {no_file} ohne lesbare Datei.",
    }
    others(count: usize) {
        en: "Other files, which end neither with .answer nor with .eon and are left alone: {count}.",
        de: "Andere Dateien, die weder auf .answer noch auf .eon enden und nicht beachtet werden: {count}.",
    }
    more() {
        en: "eon mark and eon page say more about one hand-in.",
        de: "eon mark und eon page sagen mehr über eine Abgabe.",
    }
    no_handins(name: &str) {
        en: "{name} has no hand-ins; a hand-in is NAME.answer, with its model NAME.eon beside it",
        de: "{name} enthält keine Abgaben; eine Abgabe ist NAME.answer, mit ihrem Modell NAME.eon daneben",
    }
    progress(done: usize, all: usize) { en: "{done} of {all}", de: "{done} von {all}" }
}
