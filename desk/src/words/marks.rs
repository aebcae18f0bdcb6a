//! What a hand-in is worth, and what is explained.

messages! {
    right_yes(places: usize) {
        en: "right: the run is kept, all {places} places of it, and meets the stages in order.",
        de: "richtig: Der Lauf hält an allen {places} Stellen und erfüllt die Stufen der Reihe nach.",
    }
    right_no() {
        en: "right: no run meets the stages in order, however long it is.",
        de: "richtig: Kein Lauf erfüllt die Stufen der Reihe nach, wie lang er auch ist.",
    }
    wrong_no(model: &str) {
        en: "wrong: the hand-in says no, but the question is reached: a run meets its stages in order. `eon explain {model}` shows one.",
        de: "falsch: Die Abgabe sagt no, aber die Frage ist erreicht: Ein Lauf erfüllt ihre Stufen der Reihe nach. `eon explain {model}` zeigt einen.",
    }
    wrong_yes() {
        en: "wrong: the hand-in says yes, but the question is unreached: no run meets its stages in order, however long it is.",
        de: "falsch: Die Abgabe sagt yes, aber die Frage ist unerreicht: Kein Lauf erfüllt ihre Stufen der Reihe nach, wie lang er auch ist.",
    }
    wrong_run() {
        en: "wrong: yes is the right answer, but the run does not show it.",
        de: "falsch: yes ist die richtige Antwort, aber der Lauf zeigt es nicht.",
    }
}

messages! {
    run_kept(name: &str) {
        en: "The run of {name}, which is kept:",
        de: "Der Lauf von {name}, der hält:",
    }
    run_breaks(name: &str) {
        en: "The run of {name}, up to where it breaks:",
        de: "Der Lauf von {name}, bis er bricht:",
    }
    reached() {
        en: "The question is reached.",
        de: "Die Frage ist erreicht.",
    }
    shown_run() {
        en: "A run that meets its stages in order:",
        de: "Ein Lauf, der ihre Stufen der Reihe nach erfüllt:",
    }
    unreached() {
        en: "The question is unreached: no run meets its stages in order, however long it is, so there is none to show.",
        de: "Die Frage ist unerreicht: Kein Lauf erfüllt ihre Stufen der Reihe nach, wie lang er auch ist; es gibt also keinen zu zeigen.",
    }
    can_be() {
        en: "What an object can be, in any run:",
        de: "Was ein Objekt sein kann, in irgendeinem Lauf:",
    }
}
