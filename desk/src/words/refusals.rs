//! Why a model is refused, or a hand-in unreadable, and the cure.

messages! {
    refused(number: u32, name: &str, reason: &str) {
        en: "refused ({number}): {name}: {reason}.",
        de: "abgelehnt ({number}): {name}: {reason}.",
    }
    refused_line(number: u32, line: usize, name: &str) {
        en: "refused ({number}): line {line} of {name}:",
        de: "abgelehnt ({number}): Zeile {line} von {name}:",
    }
    cure(cure: &str) {
        en: "Cure: {cure}.",
        de: "Abhilfe: {cure}.",
    }
    no_line_of_text() {
        en: "(an empty line, or the end of the text)",
        de: "(eine leere Zeile, oder das Ende des Textes)",
    }
    no_line_of_file() {
        en: "(an empty line, or the end of the file)",
        de: "(eine leere Zeile, oder das Ende der Datei)",
    }
    unreadable(line: usize, name: &str) {
        en: "unreadable: line {line} of {name}:",
        de: "unlesbar: Zeile {line} von {name}:",
    }
    too_long(name: &str) {
        en: "unreadable: {name} has over 524,288 bytes.",
        de: "unlesbar: {name} hat über 524.288 Bytes.",
    }
    too_long_cure() {
        en: "hand in a shorter text; a run has at most 9,344 places",
        de: "einen kürzeren Text abgeben; ein Lauf hat höchstens 9.344 Stellen",
    }
    first_line() {
        en: "The first line of a hand-in is yes or no.",
        de: "Die erste Zeile einer Abgabe ist yes oder no.",
    }
    further_lines() {
        en: "After a yes come the places of a run, one a line: (step line object) and (meet stage object ..), with one space between items, numbers without leading zeros, objects up to 254, at most 9,344 places. After a no comes nothing.",
        de: "Auf ein yes folgen die Stellen eines Laufs, eine je Zeile: (step Zeile Objekt) und (meet Stufe Objekt ..), mit einem Leerzeichen zwischen den Angaben, Zahlen ohne führende Nullen, Objekten bis 254, höchstens 9.344 Stellen. Auf ein no folgt nichts.",
    }
    carriage_return() {
        en: "The line ends with a carriage return (\\x0d): save the file with newlines alone, as on Unix.",
        de: "Die Zeile endet mit einem Wagenrücklauf (\\x0d): Die Datei mit bloßen Zeilenumbrüchen speichern, wie unter Unix.",
    }
    says_no(name: &str) {
        en: "unreadable: {name} says no, so it has no run.",
        de: "unlesbar: {name} sagt no und hat darum keinen Lauf.",
    }
    too_few_places(name: &str, places: usize, most: usize) {
        en: "unreadable: the run of {name} has {most} of the {places} places asked for.",
        de: "unlesbar: Der Lauf von {name} hat {most} der {places} verlangten Stellen.",
    }
    too_few_places_cure(most: usize) {
        en: "give at most {most}",
        de: "höchstens {most} angeben",
    }
    no_run_cure() {
        en: "give a hand-in that says yes and shows a run",
        de: "eine Abgabe angeben, die yes sagt und einen Lauf zeigt",
    }
    undeclared(word: &str, name: &str) {
        en: "unreadable: {word} is no label of {name}. Its labels:",
        de: "unlesbar: {word} ist kein Label von {name}. Dessen Labels:",
    }
    no_set(word: &str) {
        en: "unreadable: '{word}' is no label set.",
        de: "unlesbar: '{word}' ist keine Labelmenge.",
    }
    label_set() {
        en: "A label set is written as one word with spaces, commas or + between its names, such as A+B; the empty one is ().",
        de: "Eine Labelmenge wird als ein Wort mit Leerzeichen, Kommas oder + zwischen den Namen geschrieben, etwa A+B; die leere ist ().",
    }
    kinds_line() {
        en: "A line is port LEVEL, asked LEVEL (each once) or kind SEND RECEIVE, maybe with marked; a level is star, 0, 1, 2 or 3.",
        de: "Eine Zeile ist port EBENE, asked EBENE (je einmal) oder kind SENDEN EMPFANGEN, auch mit marked; eine Ebene ist star, 0, 1, 2 oder 3.",
    }
    kinds_missing(name: &str, word: &str) {
        en: "unreadable: {name} has no line {word} LEVEL.",
        de: "unlesbar: {name} hat keine Zeile {word} EBENE.",
    }
}

messages! {
    length() {
        en: "the text is empty or has over 16,384 bytes",
        de: "der Text ist leer oder hat über 16.384 Bytes",
    }
    length_cure() {
        en: "write a shorter text",
        de: "einen kürzeren Text schreiben",
    }
    byte() {
        en: "it has a byte other than letters, digits, space and brackets, or the last line does not end with a newline",
        de: "sie hat ein anderes Byte als Buchstaben, Ziffern, Leerzeichen und Klammern, oder die letzte Zeile hat am Ende keinen Zeilenumbruch",
    }
    byte_cure() {
        en: "take the byte out (tabs and carriage returns too), and end the file with a newline",
        de: "das Byte herausnehmen (auch Tabulatoren und Wagenrückläufe) und die Datei mit einem Zeilenumbruch beenden",
    }
    shape() {
        en: "it has none of the shapes that a line may have",
        de: "sie hat keine der Formen, die eine Zeile haben darf",
    }
    shape_cure() {
        en: "let one space stand between items and none elsewhere, and look at the forms and their limits in README.md; an empty line has no shape",
        de: "zwischen Angaben ein Leerzeichen setzen und sonst keines, und die Formen und ihre Grenzen in README.md ansehen; eine leere Zeile hat keine Form",
    }
    too_many() {
        en: "it is one declaration or clause too many",
        de: "sie ist eine Deklaration oder Klausel zu viel",
    }
    too_many_cure() {
        en: "leave one out",
        de: "eine weglassen",
    }
    again() {
        en: "it declares a name again",
        de: "sie deklariert einen Namen noch einmal",
    }
    again_cure() {
        en: "take another name",
        de: "einen anderen Namen nehmen",
    }
    unknown() {
        en: "a name in it is undeclared, or of the wrong kind there",
        de: "ein Name darin ist nicht deklariert oder dort von der falschen Art",
    }
    unknown_cure() {
        en: "declare it on an earlier line; lists and `not` take state relations, a rule's head a derived one",
        de: "ihn in einer früheren Zeile deklarieren; Listen und `not` verlangen Zustandsrelationen (state), der Kopf einer Regel eine abgeleitete (rel)",
    }
    arity() {
        en: "a relation in it has the wrong number of variables",
        de: "eine Relation darin hat die falsche Zahl von Variablen",
    }
    arity_cure() {
        en: "give it as many as declared; a state relation takes one",
        de: "ihr so viele geben wie deklariert; eine Zustandsrelation hat eine",
    }
    not_derived() {
        en: "`not` stands before a derived relation",
        de: "`not` steht vor einer abgeleiteten Relation",
    }
    not_derived_cure() {
        en: "let `not` go before state relations only",
        de: "`not` nur vor Zustandsrelationen setzen",
    }
    unsafe_variable() {
        en: "a variable stands only under `not` or only in the head, or is a fourth one, or is repeated in a rule's head",
        de: "eine Variable steht nur unter `not` oder nur im Kopf, oder sie ist eine vierte, oder sie steht im Kopf einer Regel zweimal",
    }
    unsafe_variable_cure() {
        en: "let each variable stand in a literal without `not`, and have at most three",
        de: "jede Variable in ein Literal ohne `not` setzen und höchstens drei haben",
    }
    question() {
        en: "a line follows `ask`, or there is no `ask` line",
        de: "auf `ask` folgt eine Zeile, oder es gibt keine Zeile `ask`",
    }
    question_cure() {
        en: "let `ask` be the last line",
        de: "`ask` die letzte Zeile sein lassen",
    }
    carried() {
        en: "three or more variables stand in more than one stage",
        de: "drei oder mehr Variablen stehen in mehr als einer Stufe",
    }
    carried_cure() {
        en: "carry at most two variables from stage to stage",
        de: "höchstens zwei Variablen von Stufe zu Stufe mitnehmen",
    }
    states() {
        en: "more than 127 non-empty label sets are reachable, too many for a verdict",
        de: "mehr als 127 nicht leere Labelmengen sind erreichbar, zu viele für ein Urteil",
    }
    states_cure() {
        en: "split the model, or leave labels out that the question does not need; a yes whose run is kept is marked right all the same",
        de: "das Modell teilen oder Labels weglassen, die für die Frage nicht nötig sind; ein yes, dessen Lauf hält, gilt trotzdem als richtig",
    }
    places() {
        en: "one of the places is not allowed, or the object was not created by them",
        de: "eine der Stellen ist nicht erlaubt, oder das Objekt ist durch sie nicht entstanden",
    }
    places_cure() {
        en: "give fewer places, up to before the one that breaks, and an object that is there by then; objects are numbered from 0",
        de: "weniger Stellen angeben, bis vor die, an der der Lauf bricht, und ein Objekt, das es dann schon gibt; Objekte sind von 0 an nummeriert",
    }
    no_part() {
        en: "stage 1 of the question has no variable, so no object has a part in it",
        de: "Stufe 1 der Frage hat keine Variable, also spielt darin kein Objekt eine Rolle",
    }
    no_part_cure() {
        en: "ask with a variable in the first stage",
        de: "mit einer Variablen in der ersten Stufe fragen",
    }
    crowd() {
        en: "over 126 objects exist after these places",
        de: "nach diesen Stellen gibt es über 126 Objekte",
    }
    crowd_cure() {
        en: "give fewer places",
        de: "weniger Stellen angeben",
    }
    listed() {
        en: "the list of lines is empty, has over ten, names a line twice, or names one that is neither `new` nor `next`",
        de: "die Liste der Zeilen ist leer, hat über zehn, nennt eine Zeile zweimal oder eine, die weder `new` noch `next` ist",
    }
    listed_cure() {
        en: "list one to ten different lines of these",
        de: "eine bis zehn verschiedene dieser Zeilen angeben",
    }
    kinds() {
        en: "it has no process kinds or over 18, or a level that is none of star, 0, 1, 2 and 3",
        de: "sie hat keine Prozessarten oder über 18, oder eine Ebene, die nicht star, 0, 1, 2 oder 3 ist",
    }
    kinds_cure() {
        en: "have 1 to 18 lines `kind`, with these levels",
        de: "1 bis 18 Zeilen `kind` mit diesen Ebenen schreiben",
    }
    sides() {
        en: "a side has over ten lines, or one that is no `next` line",
        de: "eine Seite hat über zehn Zeilen oder eine, die keine `next`-Zeile ist",
    }
    sides_cure() {
        en: "give each side at most ten lines of these",
        de: "jeder Seite höchstens zehn dieser Zeilen geben",
    }
    game_question() {
        en: "the question has more than one stage, or not exactly one variable",
        de: "die Frage hat mehr als eine Stufe oder nicht genau eine Variable",
    }
    game_question_cure() {
        en: "ask one stage about one variable, such as (ask ((A x) (not (B x))))",
        de: "in einer Stufe nach einer Variablen fragen, etwa (ask ((A x) (not (B x))))",
    }
    no_state() {
        en: "no run gives an object one of these two label sets",
        de: "kein Lauf gibt einem Objekt eine dieser beiden Labelmengen",
    }
    no_state_cure() {
        en: "choose two label sets of these",
        de: "zwei dieser Labelmengen wählen",
    }
    not_lent() {
        en: "the program did not lend what the call needs",
        de: "das Programm hat nicht bereitgestellt, was der Aufruf braucht",
    }
    not_lent_cure() {
        en: "report this",
        de: "dies melden",
    }
}

/// The reason and the cure of a refusal by its number.
pub fn row(number: u32) -> (String, String) {
    match number {
        1 => (length(), length_cure()),
        2 => (byte(), byte_cure()),
        3 => (shape(), shape_cure()),
        4 => (too_many(), too_many_cure()),
        5 => (again(), again_cure()),
        6 => (unknown(), unknown_cure()),
        7 => (arity(), arity_cure()),
        8 => (not_derived(), not_derived_cure()),
        9 => (unsafe_variable(), unsafe_variable_cure()),
        10 => (question(), question_cure()),
        11 => (carried(), carried_cure()),
        15 => (states(), states_cure()),
        16 => (places(), places_cure()),
        17 => (no_part(), no_part_cure()),
        18 => (crowd(), crowd_cure()),
        19 => (listed(), listed_cure()),
        20 => (kinds(), kinds_cure()),
        21 => (sides(), sides_cure()),
        22 => (game_question(), game_question_cure()),
        23 => (no_state(), no_state_cure()),
        _ => (not_lent(), not_lent_cure()),
    }
}
