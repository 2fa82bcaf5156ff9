#!/usr/bin/env python3
"""Spells the repository's own definitions, lemmas and fields in snake case: isFree -> is_free, used-not-fresh -> used_not_fresh.

usage: tools/respell.py [--check]          at the top of the repository, once, on what port.py has turned

A word of the .antt files turns if it is ours: lower camel case, or words joined by dashes that no kit module gives. What Rattle generates
(behind a dot: tie.Need-.., c.get-u32) stays. The clauses of the .rt files, the texts of the edits that must fail, and names between
backquotes in the pages follow by the same table. Where names would fall together the definition has the plain one, and a lemma gets _lem
(CONTRACT_STYLE.md, "Names", 3).
"""

import collections
import os
import re
import sys

WORD = r"[^\s(){}.;,@\"«»]+"
TOKEN = re.compile(r'"(?:[^"\\\n]|\\.)*"|(?<![^\s(){}.;,@"«»])--[^\n]*|\{-.*?-\}|' + WORD + r"|\s+|.", re.S)
LETTERS = r"\w'₀-₉′"
CAMEL = re.compile(rf"^[a-z_](?=[{LETTERS}]*[a-z0-9][A-Z])[{LETTERS}]*$")
DASH = re.compile(rf"^[A-Za-z_][{LETTERS}]*(-[{LETTERS}]+)+$")
USE = re.compile(r"^ *(?:pub )?use ([^\s{;]+)\.\{([^}]*)\}", re.M)
SPAN = re.compile(r"`[^`\n]+`")
DECLARED = re.compile(r"^ *(?:(?:abbrev|unfoldable|pub|data|record) )*([^\s(){}.;,@\"«»]+)(?: \{[^{}\n]*\})* :", re.M)
# A name that the kit has for something else; names that are a field here and a lemma there, and would fall together with a definition.
GIVEN = {"inUse": "in_use_at", "partOf": "part_of_slot", "slot-of": "slot_no_of", "first-free": "first_is_free", "is-record": "holds_record"}


def snake(name):
    parts = [re.sub(r"(?<=[a-z0-9])[A-Z]+", lambda m: "_" + m.group().lower(), x) if CAMEL.match(x) else x for x in name.split("-")]
    return "_".join(parts)


def files(end, top):
    for folder, dirs, names in os.walk(top):
        dirs[:] = sorted(d for d in dirs if d not in ("out", ".git"))
        for f in sorted(names):
            if f.endswith(end):
                yield os.path.join(folder, f)


def read(path):
    with open(path, encoding="utf-8") as f:
        return f.read()


def plain(text):
    """Each word of an .antt text, with whether it stands behind a dot."""
    before = ""
    for m in TOKEN.finditer(text):
        yield m.group(), before == "."
        before = m.group()


def is_text(word):
    return word[:2] in ("--", "{-") or word[:1] == '"'


def table():
    crates = set(os.listdir("crates"))
    kit, ours, declared, all_words = set(), set(), set(), set()
    for p in files(".antt", "crates"):
        t = read(p)
        for m in USE.finditer(t):
            steps = m.group(1).split(".")
            if steps[0] != "Rattle" or steps[1] not in crates:
                kit.update(i.strip().split(" as ")[0] for i in m.group(2).split(","))
        declared.update(DECLARED.findall(t))
        for w, dotted in plain(t):
            if is_text(w):
                continue
            all_words.add(w)
            if CAMEL.match(w) or DASH.match(w) and not dotted:
                ours.add(w)
    names, olds = {}, collections.defaultdict(set)
    for w in ours - kit:
        if w in GIVEN:
            names[w] = GIVEN[w]
        else:
            olds[snake(w)].add(w)
    for new, of in sorted(olds.items()):
        stands = new in all_words and new in declared or new in kit
        camel = {w for w in of if CAMEL.match(w)}
        for w in of:
            alone = w in camel or not camel and not stands and len(of) == 1
            names[w] = new if alone else new + "_lem"
        if len(of) > 1 or stands:
            print(f"meet: {', '.join(sorted(of | ({new} if stands else set())))} -> {new}; the lemma gets _lem")
        if camel and stands and new not in kit:
            names[new] = new + "_lem"
    twice = collections.Counter(names.values())
    for new, n in twice.items():
        if n > 1 or new in all_words and new not in names and (new in declared or new in kit):
            raise SystemExit(f"fall together: {new}, {[w for w in names if names[w] == new]}")
    return names


def turn_antt(t, names, walk):
    out = []
    for w, dotted in plain(t):
        if is_text(w):
            out.append(SPAN.sub(lambda m: turn_words(m.group(), names), w) if w[:1] != '"' else w)
        elif w in names and (not dotted or CAMEL.match(w) or "-" in w and not walk):
            out.append(names[w])
        else:
            out.append(w)
    return "".join(out)


def turn_words(t, names):
    return re.sub(rf"(?<![{LETTERS}-])[A-Za-z_][{LETTERS}]*(?:-[{LETTERS}]+)*", lambda m: names.get(m.group(), m.group()), t)


def turned_in_code(names):
    """A name that was in snake case already may be a function's of src/: it turns in .antt files alone."""
    return {w: new for w, new in names.items() if CAMEL.match(w) or "-" in w}


def turn_rt(t, names):
    names = turned_in_code(names)
    lines = []
    for line in t.split("\n"):
        code, sign, comment = line.partition("//")
        lines.append(turn_words(code, names) + sign + SPAN.sub(lambda m: turn_words(m.group(), names), comment))
    return "\n".join(lines)


def main(check):
    names = table()
    if check:
        print(f"{len(names)} names turn")
        return 0
    for top, end, how in (
        ("crates", ".antt", lambda t, p: turn_antt(t, names, p.endswith("/Proof.antt"))),
        ("crates", ".rt", lambda t, p: turn_rt(t, names)),
        ("crates", ".edit", lambda t, p: turn_words(t, turned_in_code(names))),
        ("tests", ".edit", lambda t, p: turn_words(t, turned_in_code(names))),
        ("docs", ".md", lambda t, p: SPAN.sub(lambda m: turn_words(m.group(), turned_in_code(names)), t)),
    ):
        for p in files(end, top):
            old = read(p)
            new = how(old, p)
            if new != old:
                with open(p, "w", encoding="utf-8") as f:
                    f.write(new)
    print(f"{len(names)} names turned")
    return 0


if __name__ == "__main__":
    raise SystemExit(main("--check" in sys.argv[1:]))
