//! The answers to the further questions: from here, lines to strike, the game, the way, two models, Asbestos labels.

messages! {
    from_reached(object: usize, name: &str) {
        en: "yes: object {object} can still play its part, {name} in stage 1: from here a run meets all stages in order.",
        de: "ja: Objekt {object} kann seine Rolle noch spielen, {name} in Stufe 1: Von hier an erfüllt ein Lauf alle Stufen der Reihe nach.",
    }
    from_unreached(object: usize, name: &str) {
        en: "no: from here on object {object} cannot play its part, {name} in stage 1: no run with it meets all stages in order, however long it is.",
        de: "nein: Von hier an kann Objekt {object} seine Rolle nicht spielen, {name} in Stufe 1: Kein Lauf mit ihm erfüllt alle Stufen der Reihe nach, wie lang er auch ist.",
    }
    plain_reached() {
        en: "The question by itself is reached: with another object in that part a run meets its stages.",
        de: "Die Frage selbst ist erreicht: Mit einem anderen Objekt in dieser Rolle erfüllt ein Lauf ihre Stufen.",
    }
    plain_unreached() {
        en: "The question by itself is unreached too: no object can ever play that part.",
        de: "Auch die Frage selbst ist unerreicht: Kein Objekt kann diese Rolle je spielen.",
    }
    stopped_after(places: usize, name: &str, line: usize) {
        en: "The run of {name} is stopped after place {places}, which is line {line}:",
        de: "Der Lauf von {name} ist nach Stelle {places} angehalten, das ist Zeile {line}:",
    }
    object_then(object: usize, state: &str) {
        en: "Object {object} is then: {state}",
        de: "Objekt {object} ist dann: {state}",
    }
    run_from_there() {
        en: "A run from there, in which the stages count anew; objects that were there before are called old:",
        de: "Ein Lauf von dort an, in dem die Stufen neu zählen; Objekte, die es schon gab, heißen alt:",
    }
}

messages! {
    strike_none() {
        en: "Nothing has to be struck: the question is unreached already.",
        de: "Nichts muss gestrichen werden: Die Frage ist schon unerreicht.",
    }
    strike_these() {
        en: "The question becomes unreached by striking:",
        de: "Die Frage wird unerreicht durch das Streichen von:",
    }
    strike_fewest() {
        en: "No smaller choice of the listed lines does; of equally small ones this is the first by line numbers.",
        de: "Keine kleinere Auswahl der genannten Zeilen genügt; unter gleich kleinen ist dies die erste nach Zeilennummern.",
    }
    strike_impossible() {
        en: "No choice does: the question is reached even if all listed lines are struck.",
        de: "Keine Auswahl genügt: Die Frage ist erreicht, auch wenn alle genannten Zeilen gestrichen sind.",
    }
    listed_lines() { en: "The listed lines:", de: "Die genannten Zeilen:" }
    stay_lines() { en: "These listed lines can stay:", de: "Diese genannten Zeilen können bleiben:" }
    lines_to_choose() {
        en: "The lines of the model that can be given:",
        de: "Die Zeilen des Modells, die angegeben werden können:",
    }
    shared(reached: u32, ways: u32, unreached: u32) {
        en: "Of the {ways} ways to keep some of the listed lines and strike the rest, the question is reached in {reached} and unreached in {unreached}.",
        de: "Von den {ways} Arten, einige der genannten Zeilen zu behalten und die übrigen zu streichen, ist die Frage in {reached} erreicht und in {unreached} unerreicht.",
    }
    share(share: u32, reached: u32, ways: u32, remainder: u32) {
        en: "The share reached is {share} hundredths, remainder {remainder}: 100 × {reached} = {share} × {ways} + {remainder}.",
        de: "Der erreichte Anteil ist {share} Hundertstel, Rest {remainder}: 100 × {reached} = {share} × {ways} + {remainder}.",
    }
}

messages! {
    game_rules(question: &str) {
        en: "Attacker and guardian relabel one object in turn, the attacker first.
The attacker wins as soon as the object meets {question}; the guardian wins if it never does, however long they play.
Whoever has a line that holds must move, and whoever has none passes. One further object of every label set stands by.",
        de: "Angreifer und Wächter ändern abwechselnd die Labels eines Objekts, der Angreifer zuerst.
Der Angreifer gewinnt, sobald das Objekt {question} erfüllt; der Wächter gewinnt, wenn es das nie tut, wie lange auch gespielt wird.
Wer eine Zeile hat, die gilt, muss ziehen, und wer keine hat, setzt aus. Je ein weiteres Objekt jeder Labelmenge steht bereit.",
    }
    attacker_lines() { en: "The attacker's lines:", de: "Die Zeilen des Angreifers:" }
    guardian_lines() { en: "The guardian's lines:", de: "Die Zeilen des Wächters:" }
    always_passes() { en: "none: this side passes every time", de: "keine: Diese Seite setzt jedes Mal aus" }
    head_start() { en: "the object is first", de: "das Objekt ist zuerst" }
    head_winner() { en: "who can force it", de: "wer es erzwingen kann" }
    head_moves() { en: "within (moves and passes)", de: "binnen (Züge und Aussetzer)" }
    attacker() { en: "the attacker", de: "der Angreifer" }
    guardian() { en: "the guardian", de: "der Wächter" }
    at_once() { en: "0: it meets the question already", de: "0: Es erfüllt die Frage schon" }
    never_met() { en: "never met", de: "nie erfüllt" }
    game_counts(states: usize, attacker: usize, guardian: usize) {
        en: "Of {states} label sets that an object can have, {attacker} are the attacker's and {guardian} the guardian's.",
        de: "Von {states} Labelmengen, die ein Objekt haben kann, gehören {attacker} dem Angreifer und {guardian} dem Wächter.",
    }
}

messages! {
    way_none_needed(state: &str) {
        en: "0 steps: both label sets are the same, '{state}'.",
        de: "0 Schritte: Beide Labelmengen sind dieselbe, '{state}'.",
    }
    way_one(from: &str, to: &str) {
        en: "1 step leads from '{from}' to '{to}':",
        de: "1 Schritt führt von '{from}' zu '{to}':",
    }
    way(steps: usize, from: &str, to: &str) {
        en: "{steps} steps lead from '{from}' to '{to}', and no fewer do:",
        de: "{steps} Schritte führen von '{from}' zu '{to}', und weniger tun es nicht:",
    }
    way_helpers() {
        en: "A step needs the objects that its line asks for; here one object of every label set that an object can have stands by.",
        de: "Ein Schritt braucht die Objekte, die seine Zeile verlangt; hier steht je ein Objekt jeder Labelmenge bereit, die ein Objekt haben kann.",
    }
    no_way(from: &str, to: &str) {
        en: "There is no way: no steps lead an object from '{from}' to '{to}', whoever stands by.",
        de: "Es gibt keinen Weg: Keine Schritte führen ein Objekt von '{from}' zu '{to}', wer auch bereitsteht.",
    }
    head_step() { en: "step", de: "Schritt" }
    head_text() { en: "the line", de: "die Zeile" }
}

messages! {
    differ() { en: "The models differ.", de: "Die Modelle unterscheiden sich." }
    same() {
        en: "The models have the same verdict and the same label sets.",
        de: "Die Modelle haben dasselbe Urteil und dieselben Labelmengen.",
    }
    head_verdict() { en: "verdict", de: "Urteil" }
    head_sets_count() { en: "label sets", de: "Labelmengen" }
    verdict_reached() { en: "reached", de: "erreicht" }
    verdict_unreached() { en: "unreached", de: "unerreicht" }
    only_can_be(this: &str, other: &str) {
        en: "An object can be this in {this}, and not in {other}:",
        de: "Das kann ein Objekt in {this} sein, und nicht in {other}:",
    }
    only_declared(this: &str, other: &str) {
        en: "Labels of {this} that {other} does not declare:",
        de: "Labels von {this}, die {other} nicht deklariert:",
    }
    only_lines(this: &str, other: &str) {
        en: "Lines of {this} that {other} does not have:",
        de: "Zeilen von {this}, die {other} nicht hat:",
    }
    sets_and_clears(text: &str, sets: &str, clears: &str) {
        en: "{text}: sets {sets}, clears {clears}",
        de: "{text}: setzt {sets}, löscht {clears}",
    }
    nothing() { en: "nothing", de: "nichts" }
}

messages! {
    marked_reached(level: &str) {
        en: "reached: a process of receive level {level} can come to have the mark.",
        de: "erreicht: Ein Prozess der Empfangsebene {level} kann die Marke bekommen.",
    }
    marked_unreached(level: &str) {
        en: "unreached: no process of receive level {level} ever has the mark, whatever is created and sent.",
        de: "unerreicht: Kein Prozess der Empfangsebene {level} hat je die Marke, was auch geschaffen und gesendet wird.",
    }
}
