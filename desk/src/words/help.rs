//! How to call each command.

messages! {
    /// What stands under every help.
    language() {
        en: "--lang en or --lang de, anywhere after the command, chooses the language; it is en where nothing is said.",
        de: "--lang en oder --lang de, irgendwo nach dem Befehl, wählt die Sprache; ohne Angabe ist es en.",
    }
    mark() {
        en: "usage: eon mark MODEL HANDIN

Marks a hand-in. Its first line is yes or no (or the first line of a listing); after a yes come the
places of a run, one a line, as a listing writes them: (step line object) and (meet stage object ..).
A whole listing can be handed in as it is. At most 9,344 places and 524,288 bytes are taken.

A model has at most 24 labels. Where more than 127 non-empty label sets are reachable there is no verdict:
a run that is kept is right all the same, and any other hand-in is refused (15).

Exit status: 0 right, 1 wrong, 2 the model is refused or the hand-in unreadable, 3 a file or the program failed.",
        de: "Aufruf: eon mark MODELL ABGABE

Bewertet eine Abgabe. Ihre erste Zeile ist yes oder no (oder die erste Zeile einer Auflistung); auf ein yes
folgen die Stellen eines Laufs, eine je Zeile, wie eine Auflistung sie schreibt: (step Zeile Objekt) und
(meet Stufe Objekt ..). Eine ganze Auflistung kann unverändert abgegeben werden. Höchstens 9.344 Stellen und
524.288 Bytes werden angenommen.

Ein Modell hat höchstens 24 Labels. Wo mehr als 127 nicht leere Labelmengen erreichbar sind, gibt es kein
Urteil: Ein Lauf, der hält, ist trotzdem richtig, und jede andere Abgabe wird abgelehnt (15).

Rückgabewert: 0 richtig, 1 falsch, 2 das Modell ist abgelehnt oder die Abgabe unlesbar, 3 eine Datei ist
nicht lesbar oder das Programm gescheitert.",
    }
    explain() {
        en: "usage: eon explain [--all] MODEL [HANDIN]

Shows a run step by step: what each step sets (+) and clears (\u{2212}), what the object then is, who
stood by, and which stage is met by whom. The run is that of the hand-in, or else the one that the
analysis shows. Steps of objects that only stand by are folded; --all unfolds them.

Exit status: 0 shown, 1 the hand-in's run breaks, 2 the model is refused or the hand-in unreadable, 3 a file
or the program failed.",
        de: "Aufruf: eon explain [--all] MODELL [ABGABE]

Zeigt einen Lauf Schritt für Schritt: was jeder Schritt setzt (+) und löscht (\u{2212}), was das Objekt dann
ist, wer bereitstand, und welche Stufe durch wen erfüllt ist. Es ist der Lauf der Abgabe, sonst der, den die
Analyse zeigt. Schritte von Objekten, die nur bereitstehen, sind zusammengefasst; --all zeigt jeden.

Rückgabewert: 0 gezeigt, 1 der Lauf der Abgabe bricht, 2 das Modell ist abgelehnt oder die Abgabe unlesbar,
3 eine Datei ist nicht lesbar oder das Programm gescheitert.",
    }
    page() {
        en: "usage: eon page [--all] MODEL [HANDIN]

Writes what eon explain shows, and the mark of the hand-in, as one page of HTML on standard output: send it
into a file and open it in a browser, or print it. Nothing is loaded from elsewhere, and no script runs.

  eon page examples/pay-mistaken.eon >pay.html

Exit status: as of eon explain; a page is written for 0, 1 and 2.",
        de: "Aufruf: eon page [--all] MODELL [ABGABE]

Schreibt, was eon explain zeigt, und die Bewertung der Abgabe als eine HTML-Seite auf die Standardausgabe:
in eine Datei geleitet, lässt sie sich in einem Browser öffnen oder drucken. Nichts wird von anderswo geladen,
und kein Skript läuft.

  eon page examples/pay-mistaken.eon >pay.html

Rückgabewert: wie bei eon explain; eine Seite wird bei 0, 1 und 2 geschrieben.",
    }
    from() {
        en: "usage: eon from [--all] MODEL HANDIN PLACES OBJECT

Asks what can still become of an object: a tutor stops the hand-in's run after its first PLACES places and
points at an object by its number, from 0. Can that very object still play its part, that of the first
variable of stage 1? All stages count anew from there. Shows what the object is then, and a run from there,
in which steps of objects that only stand by are folded; --all unfolds them.

The line with yes is no place: where the run begins on line 2, PLACES 3 goes up to line 4 of the hand-in.

Exit status: 0 it can, 1 it cannot, 2 refused or unreadable, 3 a file or the program failed.",
        de: "Aufruf: eon from [--all] MODELL ABGABE STELLEN OBJEKT

Fragt, was aus einem Objekt noch werden kann: Der Lauf der Abgabe wird nach den ersten STELLEN Stellen
angehalten und ein Objekt durch seine Nummer gewählt, von 0 an. Kann eben dieses Objekt seine Rolle noch
spielen, die der ersten Variablen von Stufe 1? Alle Stufen zählen von dort an neu. Gezeigt wird, was das Objekt
dann ist, und ein Lauf von dort an, in dem Schritte von Objekten, die nur bereitstehen, zusammengefasst sind;
--all zeigt jeden.

Die Zeile mit yes ist keine Stelle: Beginnt der Lauf in Zeile 2, so reichen 3 Stellen bis Zeile 4 der Abgabe.

Rückgabewert: 0 es kann, 1 es kann nicht, 2 abgelehnt oder unlesbar, 3 eine Datei ist nicht lesbar oder das
Programm gescheitert.",
    }
    strike() {
        en: "usage: eon strike MODEL LINE..

Finds the fewest of the listed lines whose removal makes the question unreached. The list has the numbers of
one to ten `new` and `next` lines that the policy could do without, with spaces or commas between them.
Removing lines renumbers none.

Exit status: 0 lines to strike, or none needed; 1 no choice does; 2 refused, 3 a file or the program failed.",
        de: "Aufruf: eon strike MODELL ZEILE..

Findet die wenigsten der genannten Zeilen, ohne die die Frage unerreicht ist. Die Liste hat die Nummern von
einer bis zehn `new`- und `next`-Zeilen, auf die sich verzichten ließe, mit Leerzeichen oder Kommas dazwischen.
Durch das Streichen ändert sich keine Zeilennummer.

Rückgabewert: 0 Zeilen zu streichen, oder keine nötig; 1 keine Auswahl genügt; 2 abgelehnt, 3 eine Datei ist
nicht lesbar oder das Programm gescheitert.",
    }
    share() {
        en: "usage: eon share MODEL LINE..

Counts the ways to keep some of the listed lines and strike the rest: with how many of them the question is
reached, with how many it is unreached, and the share reached in hundredths. The list is as for eon strike.

Exit status: 0 counted, 2 refused, 3 a file or the program failed.",
        de: "Aufruf: eon share MODELL ZEILE..

Zählt die Arten, einige der genannten Zeilen zu behalten und die übrigen zu streichen: in wie vielen die Frage
erreicht ist, in wie vielen unerreicht, und den erreichten Anteil in Hundertsteln. Die Liste ist wie bei eon
strike.

Rückgabewert: 0 gezählt, 2 abgelehnt, 3 eine Datei ist nicht lesbar oder das Programm gescheitert.",
    }
    game() {
        en: "usage: eon game MODEL [--attacker LINE,..] [--guardian LINE,..]

Sets two sides on one object. Each has up to ten `next` lines, by their numbers with commas between them; a
line may belong to both, and a side that is left out has none. They move in turn, the attacker first, each
by a line of its own that holds for the object; a side with no such line passes, and a side that has one
must move. One further object of every reachable label set stands by. The attacker wins as soon as the
object meets the question, which has one stage with one variable; the guardian wins if that never happens.

Tells for each label set that an object can have who can force his outcome, and for the attacker the fewest
moves within which he can force it, both sides' moves and passes counted.

Exit status: 0 told, 2 refused, 3 a file or the program failed.",
        de: "Aufruf: eon game MODELL [--attacker ZEILE,..] [--guardian ZEILE,..]

Setzt zwei Seiten auf ein Objekt an: den Angreifer (attacker) und den Wächter (guardian). Jede hat bis zu
zehn `next`-Zeilen, nach Nummern mit Kommas dazwischen; eine Zeile darf beiden gehören, und eine
weggelassene Seite hat keine. Sie ziehen abwechselnd, der Angreifer zuerst, jede mit einer eigenen Zeile,
die für das Objekt gilt; eine Seite ohne solche Zeile setzt aus, und eine mit einer solchen muss ziehen. Je
ein weiteres Objekt jeder erreichbaren Labelmenge steht bereit. Der Angreifer gewinnt, sobald das Objekt die
Frage erfüllt, die eine Stufe mit einer Variablen hat; der Wächter gewinnt, wenn das nie geschieht.

Sagt für jede Labelmenge, die ein Objekt haben kann, wer seinen Ausgang erzwingen kann, und für den Angreifer
die wenigsten Züge, binnen derer er es kann, die Züge und Aussetzer beider Seiten gezählt.

Rückgabewert: 0 gesagt, 2 abgelehnt, 3 eine Datei ist nicht lesbar oder das Programm gescheitert.",
    }
    way() {
        en: "usage: eon way MODEL FROM TO

Shows the fewest steps by which an object gets from one label set to another, with the objects standing by
that its lines ask for. A label set is one word with spaces, commas or + between its names, in any order:
Pay+Open, 'Open Pay'. The empty one is '()'.

Exit status: 0 a way, 1 there is none, 2 refused or unreadable, 3 a file or the program failed.",
        de: "Aufruf: eon way MODELL VON NACH

Zeigt die wenigsten Schritte, durch die ein Objekt von einer Labelmenge zu einer anderen kommt, wobei die
Objekte bereitstehen, die die Zeilen verlangen. Eine Labelmenge ist ein Wort mit Leerzeichen, Kommas oder +
zwischen den Namen, in beliebiger Reihenfolge: Pay+Open, 'Open Pay'. Die leere ist '()'.

Rückgabewert: 0 ein Weg, 1 es gibt keinen, 2 abgelehnt oder unlesbar, 3 eine Datei ist nicht lesbar oder das
Programm gescheitert.",
    }
    class() {
        en: "usage: eon class FOLDER [MODEL] [--csv]

Marks every hand-in of a folder: NAME.answer, by the learner's own model NAME.eon beside it. With MODEL each is
marked by that model too, and a hand-in needs no model of its own; it is then right only if it is right by both.
Other files, and what is in folders of the folder, are left alone. One bad file never stops the others.

The marks are right and wrong; refused, where the model is not accepted or there is no verdict (15);
unreadable, where the hand-in is no verdict and no run; incomplete, where NAME.answer or the only model is
missing; and no file, where a file cannot be read. At the end they are counted.

--csv writes a table for spreadsheets, in UTF-8 with commas and every field in quotes, and the counts on
standard error. A field that would be a formula there begins with '.

Exit status: 0 all are right, 1 all could be marked and some are wrong, 2 some could not be marked, 3 the
folder, MODEL or the program failed.",
        de: "Aufruf: eon class ORDNER [MODELL] [--csv]

Bewertet jede Abgabe eines Ordners: NAME.answer, nach dem eigenen Modell NAME.eon daneben. Mit MODELL wird jede
auch nach diesem Modell bewertet, und eine Abgabe braucht kein eigenes; richtig ist sie dann nur, wenn sie nach
beiden richtig ist. Andere Dateien, und was in Ordnern des Ordners liegt, werden nicht beachtet. Eine schlechte
Datei hält die anderen nie auf.

Die Bewertungen sind richtig und falsch; abgelehnt, wo das Modell nicht angenommen wird oder es kein Urteil
gibt (15); unlesbar, wo die Abgabe kein Urteil und kein Lauf ist; unvollständig, wo NAME.answer oder das
einzige Modell fehlt; und keine Datei, wo sich eine Datei nicht lesen lässt. Am Ende werden sie gezählt.

--csv schreibt eine Tabelle für Tabellenprogramme, in UTF-8 mit Kommas und jedem Feld in Anführungszeichen, und
die Zahlen auf die Standardfehlerausgabe. Ein Feld, das dort eine Formel wäre, beginnt mit '.

Rückgabewert: 0 alle sind richtig, 1 alle ließen sich bewerten und einige sind falsch, 2 einige ließen sich
nicht bewerten, 3 der Ordner oder MODELL ist nicht lesbar oder das Programm gescheitert.",
    }
    compare() {
        en: "usage: eon compare MODEL MODEL

Shows the verdicts of two models side by side, and what differs: the label sets that an object can have in one
and not in the other, the labels that only one declares, and the lines that only one has, with what they set
and clear. Labels are matched by their names, in whatever order they are declared.

Exit status: 0 verdict and label sets are the same, 1 they differ, 2 a model is refused, 3 a file or the
program failed.",
        de: "Aufruf: eon compare MODELL MODELL

Zeigt die Urteile zweier Modelle nebeneinander, und was sich unterscheidet: die Labelmengen, die ein Objekt
in einem haben kann und im anderen nicht, die Labels, die nur eines deklariert, und die Zeilen, die nur
eines hat, mit dem, was sie setzen und löschen. Labels werden nach ihren Namen verglichen, gleich in welcher
Reihenfolge sie deklariert sind.

Rückgabewert: 0 Urteil und Labelmengen sind gleich, 1 sie unterscheiden sich, 2 ein Modell ist abgelehnt, 3
eine Datei ist nicht lesbar oder das Programm gescheitert.",
    }
    asbestos() {
        en: "usage: eon asbestos [--text] FILE

Writes the text for processes with Asbestos labels of one field, and says its verdict. The lines of FILE are

  port LEVEL                     the port level: one line
  asked LEVEL                    whether a process of this receive level ever has the mark: one line
  kind SEND RECEIVE              processes of these levels are created at any time and in any number
  kind SEND RECEIVE marked       the same, and they carry the marked message; 1 to 18 such lines

A level is star, 0, 1, 2 or 3. A line that is empty or begins with # says nothing. In the text S0 to S4 are
these send levels, R0 to R4 say that the receive level is this or higher, and M is the mark. --text writes
the text alone, for `eon` and `eon explain`.

Exit status: 0 written, 2 refused or unreadable, 3 a file or the program failed.",
        de: "Aufruf: eon asbestos [--text] DATEI

Schreibt den Text für Prozesse mit Asbestos-Labels eines Feldes und sagt sein Urteil. Die Zeilen der DATEI sind

  port EBENE                     die Ebene des Ports: eine Zeile
  asked EBENE                    ob ein Prozess dieser Empfangsebene je die Marke hat: eine Zeile
  kind SENDEN EMPFANGEN          Prozesse dieser Ebenen entstehen jederzeit und in beliebiger Zahl
  kind SENDEN EMPFANGEN marked   ebenso, und sie tragen die markierte Nachricht; 1 bis 18 solche Zeilen

Eine Ebene ist star, 0, 1, 2 oder 3. Eine Zeile, die leer ist oder mit # beginnt, sagt nichts. Im Text sind
S0 bis S4 diese Sendeebenen, R0 bis R4 sagen, dass die Empfangsebene diese oder eine höhere ist, und M ist
die Marke. --text schreibt den Text allein, für `eon` und `eon explain`.

Rückgabewert: 0 geschrieben, 2 abgelehnt oder unlesbar, 3 eine Datei ist nicht lesbar oder das Programm
gescheitert.",
    }
}
