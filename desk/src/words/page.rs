//! What only a page says.

messages! {
    /// The language of a page, as its root names it.
    lang() { en: "en", de: "de" }
    result() { en: "Result", de: "Ergebnis" }
    question() { en: "The question:", de: "Die Frage:" }
    run() { en: "The run, step by step", de: "Der Lauf, Schritt für Schritt" }
    run_caption() {
        en: "The run: what each step sets (+) and clears (−), what the object is then, and who stood by.",
        de: "Der Lauf: was jeder Schritt setzt (+) und löscht (−), was das Objekt dann ist, und wer bereitstand.",
    }
    set() { en: "set", de: "gesetzt" }
    cleared() { en: "cleared", de: "gelöscht" }
    break_heading() { en: "Where the run breaks", de: "Wo der Lauf bricht" }
    states() { en: "What an object can be, in any run", de: "Was ein Objekt sein kann, in irgendeinem Lauf" }
    model() { en: "The model", de: "Das Modell" }
    model_caption(name: &str) { en: "The lines of {name}.", de: "Die Zeilen von {name}." }
    head_number() { en: "line", de: "Zeile" }
    head_text() { en: "text", de: "Text" }
}
