#!/usr/bin/env python3
"""Lists the places in src/ that docs/DESIGN-PASS.md counts, point by point.

    tools/design_places.py [TREE] [POINT ..]      each place, a line `point | crate | line | what`; last the counts

1a  an enum with a case for a refusal or for nothing        4   a function that copies or compares by its name
1b  a flag beside other fields of a struct                  5a  a fact in the requirements of three or more functions
1c  a comment that says that a number stands for none       5b  three parameters that travel together in three or more functions
1d  a number of a refusal                                   5c  a text and a place in it
2   functions whose bodies differ in names and numbers only 6a  a length beside an array in a struct
3a  a loop that counts an index by hand                     6b  arrays of one length in a struct
3b  any other loop that is no `for`                         6c  a slice and how much of it counts

A place is found by its text alone; what a finding means is read on the page. A place is kept where the comment directly above it, or above its
function, says with the word `stays` or `stay` why; for 5a and 5b above the first function that has the fact or the parameters. The counts are
those of all places, and in brackets of the kept ones.
"""

import glob
import os
import re
import sys

NONE = re.compile(
    r"// .*(\b0 if|\bor 0\b|\bor 3\b|\bor n\b|or NONE|or SLOTS|or SETS|or LISTED|or 255|0 where|0 and 0|3 if|255 (where|in)"
    r"|if there is none|if it is not there|n where|tands for no\b|where it (has|is) no|255 for none|0 standing|or the number of|or the text's length|nothing elsewhere|no number elsewhere)"
)


def functions(text):
    """Each function: its line, name, signature, clauses and body."""
    for m in re.finditer(r"^( *)(?:pub )?(?:const )?fn (\w+)", text, re.M):
        at = m.end()
        depth = 0
        # The body begins at a brace that opens a line of its own, or that ends the signature.
        open_ = None
        for b in re.finditer(r"^ *\{$|\) (?:-> [^\n{]*)?\{$", text[m.start():], re.M):
            open_ = m.start() + b.end() - 1
            break
        if open_ is None:
            continue
        # A function that a trait asks for has no body.
        bare = re.search(r";$", text[m.start():open_], re.M)
        if bare:
            open_ = m.start() + bare.start()
        end = open_ - 1 if bare else open_
        for i in range(open_, open_ if bare else len(text)):
            if text[i] == "{":
                depth += 1
            elif text[i] == "}":
                depth -= 1
                if depth == 0:
                    end = i
                    break
        head = text[m.start():open_]
        cut = re.search(r"^\s+(requires|ensures)", head, re.M)
        signature = head[:cut.start()] if cut else head
        clauses = head[cut.start():] if cut else ""
        yield text.count("\n", 0, m.start()) + 1, m.group(2), signature, clauses, text[open_:end + 1]


def conjuncts(clauses):
    """The facts of the `requires` clauses, cut at each × outside brackets."""
    out = []
    for m in re.finditer(r"requires(?: \w+)? \{(.*?)\}\s*(?=requires|ensures|$)", clauses, re.S):
        depth, piece = 0, ""
        for c in m.group(1):
            if c in "([":
                depth += 1
            if c in ")]":
                depth -= 1
            if c == "×" and depth == 0:
                out.append(piece.strip())
                piece = ""
            else:
                piece += c
        out.append(piece.strip())
    return out


def shape(body):
    """A body with its names numbered by first appearance, and each number alike."""
    seen, out = {}, []
    for t in re.findall(r"[A-Za-z_]\w*|\d[\d_]*|\S", body):
        if re.match(r"(let|mut|while|for|in|if|else|return|match|as|loop|true|false)$", t):
            out.append(t)
        elif t[0].isdigit():
            out.append("0")
        elif t[0].isalpha() or t[0] == "_":
            out.append("v%d" % seen.setdefault(t, len(seen)))
        else:
            out.append(t)
    return " ".join(out)


STAYS = re.compile(r"^\s*// .*\b[Ss]tays?\b")


def reasons_above(lines, line):
    """The sentences of the comment directly above a line that say why something stays."""
    i, out = line - 2, []
    while i >= 0 and re.match(r"\s*(//|#\[)", lines[i]):
        if STAYS.match(lines[i]):
            out.insert(0, lines[i].strip()[3:])
        i -= 1
    return out


def parameters(signature):
    inside = re.search(r"\((.*)\)", signature, re.S)
    return re.findall(r"(?:mut )?(\w+): ([^,()]+(?:\[[^\]]*\])?)", inside.group(1)) if inside else []


def main():
    arguments = sys.argv[1:]
    tree = arguments.pop(0) if arguments and os.path.isdir(arguments[0]) else "."
    points = arguments
    found = []
    bodies, wants, lists = {}, {}, {}
    for path in sorted(glob.glob(os.path.join(tree, "crates/*/src/*.rt"))):
        crate = path.split(os.sep)[-3]
        text = open(path, encoding="utf-8").read()

        lines = text.split("\n")

        def add(point, line, what, other=None):
            why = reasons_above(lines, line) + (reasons_above(lines, other) if other else [])
            found.append((point, crate, line, what, " ".join(why)))

        def line_of(at):
            return text.count("\n", 0, at) + 1

        for m in re.finditer(r"^(?:pub )?enum (\w+) \{\n(.*?)^\}", text, re.M | re.S):
            variants = re.findall(r"^    (\w+)(\(| \{|,)", m.group(2), re.M)
            units = [v for v, k in variants if k == ","]
            full = [v for v, k in variants if k != ","]
            bad = [v for v, _ in variants if re.match(r"(Refused|Unreadable|Failed|Nowhere|No[A-Z]\w*|Malformed|Unclear|Broken)$", v)]
            if bad or (len(variants) == 2 and len(units) == 1 and len(full) == 1):
                add("1a", line_of(m.start()), "enum " + m.group(1) + ": " + ", ".join(v for v, _ in variants))
        for m in re.finditer(r"^(?:pub )?struct (\w+)[^\n]*\{\n(.*?)^\}", text, re.M | re.S):
            fields = re.findall(r"^    (?:pub )?(\w+): ([^\n]*),$", m.group(2), re.M)
            for n, t in fields:
                if t == "bool" and len(fields) > 1:
                    add("1b", line_of(m.start()), f"struct {m.group(1)}: flag {n}")
                if re.match(r"(number|fault|row)$", n) and t == "u32":
                    add("1d", line_of(m.start()), f"struct {m.group(1)}: {n}: {t}")
            arrays = {}
            for n, t in fields:
                a = re.match(r"\[.*; (\w+)\]$", t)
                if a:
                    arrays.setdefault(a.group(1), []).append(n)
            for size, names in arrays.items():
                if len(names) > 1:
                    add("6b", line_of(m.start()), f"struct {m.group(1)}: arrays {', '.join(names)} of {size}")
            counts = [n for n, t in fields if re.search(r"count$|^objects$|^size$|^total$", n) and t == "usize"]
            if counts and arrays:
                add("6a", line_of(m.start()), f"struct {m.group(1)}: {', '.join(counts)} beside an array")
        for m in re.finditer(r"^ *(// [^\n]*)$", text, re.M):
            if NONE.search(m.group(1)) and not STAYS.match(m.group(1)):
                name = re.search(r"^ *(?:pub )?(?:const )?(?:fn|struct|enum|const) (\w+)", text[m.end():], re.M)
                at = line_of(m.end() + name.start(1)) if name else line_of(m.start())
                add("1c", at, (name.group(1) if name else "?") + ": " + m.group(1)[3:140])
        for m in re.finditer(r"Refused \{ number: u32, line: u32 \}|Refused \{\n\s+number: u32,", text):
            add("1d", line_of(m.start()), "Refused { number, line }")
        for line, name, signature, clauses, body in functions(text):
            where = f"{name}"
            if re.search(r"-> u32\s*$", signature.rstrip()) and re.search(r"fault|number_at|early|crowded|state_number|rel_number|lower_of", name):
                add("1d", line, f"{where} answers a row's number")
            for m in re.finditer(r"\b(while ([^\n{]*)|loop) \{", body):
                depth, end = 0, len(body)
                for i in range(m.end() - 1, len(body)):
                    depth += {"{": 1, "}": -1}.get(body[i], 0)
                    if depth == 0:
                        end = i
                        break
                inner = body[m.end():end]
                counted = [v for v in re.findall(r"\b(\w+) [+-]= 1;", inner) if re.search(r"\b%s\b" % v, m.group(2) or "")]
                at = line + signature.count("\n") + clauses.count("\n") + body.count("\n", 0, m.start())
                if counted:
                    add("3a", at, f"{where}: while {m.group(2).strip()}", line)
                else:
                    add("3b", at, f"{where}: {(m.group(2) or 'loop').strip()}", line)
            text_ = shape(body)
            if body.count("\n") >= 5:
                bodies.setdefault(text_, []).append((crate, line, name, reasons_above(lines, line)))
            for c in conjuncts(clauses):
                wants.setdefault((crate, c), []).append((name, line, reasons_above(lines, line)))
            names = [f"{n}: {t.strip()}" for n, t in parameters(signature)]
            for i in range(len(names)):
                for j in range(i + 1, len(names)):
                    for k in range(j + 1, len(names)):
                        lists.setdefault((crate, names[i], names[j], names[k]), []).append((name, line, reasons_above(lines, line)))
            pairs = parameters(signature)
            for (n, t), (k, u) in zip(pairs, pairs[1:]):
                if t.strip().startswith("&") and "[" in t and u.strip() == "usize" and re.search(r"\b%s ≤ length %s\.|GoodLiterals %s\.\w+ %s|GoodBody \(?%s" % (k, n, n, k, n), clauses):
                    point = "5c" if re.match(r"(at|s|first|v|i|a)$", k) else "6c"
                    add(point, line, f"{where}: {n}: {t.strip()}, {k}: usize")
            if re.search(r"\b(same|equal|copy|copied|compare)\w*$", name):
                add("4", line, f"{where}")
    for text_, all_ in bodies.items():
        if len(all_) > 1:
            for crate, line, name, why in all_:
                others = ", ".join(f"{c}::{n}" for c, _, n, _ in all_ if (c, n) != (crate, name))
                found.append(("2", crate, line, f"{name}: one body as " + others, " ".join(why)))
    for (crate, c), uses in wants.items():
        names = sorted({n for n, _, _ in uses})
        if len(names) >= 3 and c:
            found.append(("5a", crate, uses[0][1], f"{' '.join(c.split())[:90]}: {len(names)} functions", " ".join(uses[0][2])))
    best = {}
    for (crate, *three), uses in lists.items():
        names = tuple(sorted({n for n, _, _ in uses}))
        if len(names) >= 3:
            best.setdefault((crate, names), (uses[0], set()))[1].update(three)
    for (crate, names), (first, params) in best.items():
        found.append(("5b", crate, first[1], f"{', '.join(sorted(params))}: {len(names)} functions", " ".join(first[2])))
    counts, kept = {}, {}
    for point, crate, line, what, why in sorted(found):
        if points and point not in points and point[0] not in points:
            continue
        counts[point] = counts.get(point, 0) + 1
        kept[point] = kept.get(point, 0) + (why != "")
        print(f"{point} | {crate} | {line} | {what}" + (f" | {why}" if why else ""))
    print(", ".join(f"{p}: {n} ({kept[p]})" for p, n in sorted(counts.items())))


if __name__ == "__main__":
    main()
