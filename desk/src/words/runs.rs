//! How runs are told: their steps, meetings and objects, where they break and why.

messages! {
    /// The columns of a run's table; the first is one of the two.
    head_line() { en: "line", de: "Zeile" }
    head_place() { en: "place", de: "Stelle" }
    head_model() { en: "of the model", de: "im Modell" }
    head_who() { en: "who", de: "wer" }
    head_sets() { en: "sets", de: "setzt" }
    head_clears() { en: "clears", de: "löscht" }
    head_then() { en: "is then", de: "ist dann" }
    head_stood() { en: "who stood by", de: "wer bereitstand" }
    line(line: usize) { en: "line {line}", de: "Zeile {line}" }
    /// A line of the model with its text.
    line_with_text(line: usize, text: &str) { en: "line {line}: {text}", de: "Zeile {line}: {text}" }
    object(object: usize) { en: "object {object}", de: "Objekt {object}" }
    old_object(object: usize) { en: "old object {object}", de: "altes Objekt {object}" }
    new_object(object: usize) { en: "object {object} is new", de: "Objekt {object} ist neu" }
    /// A variable's object, and what it is.
    stands_for(name: &str, object: &str, state: &str) {
        en: "{name} is {object} ({state})",
        de: "{name} ist {object} ({state})",
    }
    stage_met(stage: usize) {
        en: "stage {stage} is met",
        de: "Stufe {stage} ist erfüllt",
    }
    stage_met_by(stage: usize, objects: &str) {
        en: "stage {stage} is met: {objects}",
        de: "Stufe {stage} ist erfüllt: {objects}",
    }
    from_to(from: usize, to: usize) { en: "{from} to {to}", de: "{from} bis {to}" }
    relabeled_one() {
        en: "1 object that stands by is relabeled",
        de: "1 Objekt, das bereitsteht, bekommt andere Labels",
    }
    relabeled(count: usize) {
        en: "{count} objects that stand by are relabeled",
        de: "{count} Objekte, die bereitstehen, bekommen andere Labels",
    }
    made_one() {
        en: "1 object is made to stand by",
        de: "1 Objekt wird geschaffen, um bereitzustehen",
    }
    made(count: usize) {
        en: "{count} objects are made to stand by",
        de: "{count} Objekte werden geschaffen, um bereitzustehen",
    }
    and_more(count: usize) { en: "and {count} more", de: "und {count} weitere" }
    is(object: usize, state: &str) { en: "{object} is {state}", de: "{object} ist {state}" }
    without_labels() { en: "without labels", de: "ohne Labels" }
    none() { en: "none", de: "keine" }
}

messages! {
    breaks_at(line: usize, name: &str) {
        en: "The run breaks at line {line} of {name}:",
        de: "Der Lauf bricht in Zeile {line} von {name}:",
    }
    breaks_at_end_one(line: usize, name: &str) {
        en: "The run breaks at its end, after line {line} of {name}: 1 stage is met, and stage 2 is left.",
        de: "Der Lauf bricht an seinem Ende ab, nach Zeile {line} von {name}: 1 Stufe ist erfüllt, und Stufe 2 bleibt übrig.",
    }
    breaks_at_end(line: usize, name: &str, met: usize, left: usize) {
        en: "The run breaks at its end, after line {line} of {name}: {met} stages are met, and stage {left} is left.",
        de: "Der Lauf bricht an seinem Ende ab, nach Zeile {line} von {name}: {met} Stufen sind erfüllt, und Stufe {left} bleibt übrig.",
    }
    no_object_yet() { en: "There is no object yet.", de: "Es gibt noch kein Objekt." }
    objects_then() { en: "The objects at that moment:", de: "Die Objekte in diesem Augenblick:" }
    object_is(object: usize, state: &str) { en: "object {object}: {state}", de: "Objekt {object}: {state}" }
    would_take(object: usize, line: usize) {
        en: "Object {object} would take line {line} of the model:",
        de: "Objekt {object} würde Zeile {line} des Modells nehmen:",
    }
    would_meet(stage: usize) {
        en: "Stage {stage} of the question would be met:",
        de: "Stufe {stage} der Frage würde erfüllt:",
    }
    would_meet_with(stage: usize, objects: &str) {
        en: "Stage {stage} of the question would be met with {objects}:",
        de: "Stufe {stage} der Frage würde erfüllt mit {objects}:",
    }
    object_for(object: usize, name: &str) { en: "object {object} for {name}", de: "Objekt {object} für {name}" }
    no_such_line() { en: "(there is no such line)", de: "(es gibt keine solche Zeile)" }
    not_allowed(because: &str) {
        en: "This is not allowed there. {because}",
        de: "Das ist dort nicht erlaubt. {because}",
    }
}

messages! {
    all_met() {
        en: "All stages were met before: a run ends with the last meeting.",
        de: "Alle Stufen waren schon erfüllt: Ein Lauf endet, wenn die letzte erfüllt ist.",
    }
    no_step_line() {
        en: "It is no `new` and no `next` line, so no step takes it.",
        de: "Diese Zeile ist weder eine `new`- noch eine `next`-Zeile, also nimmt kein Schritt sie.",
    }
    other_number(number: usize) {
        en: "Objects are numbered from 0 in order of creation, so the new one is object {number}.",
        de: "Objekte sind von 0 an in der Reihenfolge ihrer Entstehung nummeriert, also bekommt das neue Objekt die Nummer {number}.",
    }
    no_object_at_all() {
        en: "There is no such object: there is none yet.",
        de: "Dieses Objekt gibt es nicht: Es gibt noch keines.",
    }
    no_object_but_one() {
        en: "There is no such object: there is only object 0.",
        de: "Dieses Objekt gibt es nicht: Es gibt nur Objekt 0.",
    }
    no_object_above(last: usize) {
        en: "There is no such object: there are objects 0 to {last}.",
        de: "Dieses Objekt gibt es nicht: Es gibt die Objekte 0 bis {last}.",
    }
    other_stage(stage: usize) {
        en: "Stages are met in order, and the next one is stage {stage}.",
        de: "Stufen werden der Reihe nach erfüllt, und die nächste ist Stufe {stage}.",
    }
    no_variables() {
        en: "The stage has no variables, so the meeting names no objects.",
        de: "Die Stufe hat keine Variablen, also nennt diese Stelle keine Objekte.",
    }
    one_variable(name: &str) {
        en: "The stage has 1 variable, {name}: the meeting names one object for each.",
        de: "Die Stufe hat 1 Variable, {name}: Die Stelle nennt für jede ein Objekt.",
    }
    variables(count: usize, names: &str) {
        en: "The stage has {count} variables, {names}: the meeting names one object for each.",
        de: "Die Stufe hat {count} Variablen, {names}: Die Stelle nennt für jede ein Objekt.",
    }
    carried(others: &str) {
        en: "A variable that stands in two stages is one object in both: {others}.",
        de: "Eine Variable, die in zwei Stufen steht, ist in beiden dasselbe Objekt: {others}.",
    }
    since(name: &str, object: usize, stage: usize) {
        en: "{name} is object {object} since stage {stage}",
        de: "{name} ist seit Stufe {stage} Objekt {object}",
    }
    literal_of_stage(literal: &str) {
        en: "The literal {literal} does not hold of these objects.",
        de: "Das Literal {literal} gilt nicht für diese Objekte.",
    }
    /// Literals are tried from left to right, those with `not` last.
    literal_of_new(literal: &str) {
        en: "Its literals have to hold of some objects, and none make {literal} true together with the literals without `not` before it.",
        de: "Die Literale dieser Zeile müssen für irgendwelche Objekte gelten, und es gibt keine Objekte, die {literal} zusammen mit den Literalen ohne `not` davor wahr machen.",
    }
    not_literal_of_new(literal: &str) {
        en: "Its literals have to hold of some objects, and none make {literal} true together with all literals without `not` and those with it before this one.",
        de: "Die Literale dieser Zeile müssen für irgendwelche Objekte gelten, und es gibt keine Objekte, die {literal} zusammen mit allen Literalen ohne `not` und denen mit `not` davor wahr machen.",
    }
    literal_of_next(literal: &str, object: usize, name: &str) {
        en: "Its literals have to hold of some objects, and with object {object} for {name}, none make {literal} true together with the literals without `not` before it.",
        de: "Die Literale dieser Zeile müssen für irgendwelche Objekte gelten, und mit Objekt {object} für {name} gibt es keine Objekte, die {literal} zusammen mit den Literalen ohne `not` davor wahr machen.",
    }
    not_literal_of_next(literal: &str, object: usize, name: &str) {
        en: "Its literals have to hold of some objects, and with object {object} for {name}, none make {literal} true together with all literals without `not` and those with it before this one.",
        de: "Die Literale dieser Zeile müssen für irgendwelche Objekte gelten, und mit Objekt {object} für {name} gibt es keine Objekte, die {literal} zusammen mit allen Literalen ohne `not` und denen mit `not` davor wahr machen.",
    }
    /// The same in short.
    literal_of_stage_fails(literal: &str) {
        en: "{literal} does not hold of these objects",
        de: "{literal} gilt nicht für diese Objekte",
    }
    literal_of_step_fails(literal: &str) {
        en: "no objects make {literal} true there",
        de: "keine Objekte machen dort {literal} wahr",
    }
}
