#!/usr/bin/env python3
"""Moves the theorems of crates/store/specs/Laws and specs/Promises to proofs/, and leaves in specs/ the definitions that contracts cite.

usage: tools/move_laws.py          at the top of the repository, once

Where theorems stand in specs/, an edit of a definition under them can't be read, and shows nothing. Statements stay as they are.
"""

import os
import re
import subprocess

STAY = {"Slots": ["Codable"], "Edits": ["Apart"], "Views": ["Sound"], "Compactify": ["All", "Desc", "lens_of", "Packing"], "Lent": None}
STORE = "crates/store"
USE = re.compile(r"^((?:pub )?use Rattle\.store\.)specs\.(Laws|Promises)\.(\w+)\.\{([^}]*)\}$", re.M)


def read(p):
    with open(p, encoding="utf-8") as f:
        return f.read()


def write(p, t):
    os.makedirs(os.path.dirname(p), exist_ok=True)
    with open(p, "w", encoding="utf-8") as f:
        f.write(t)


def split(m):
    head, folder, module, names = m.groups()
    names = [n.strip() for n in names.split(",")]
    stay = STAY.get(module, []) if folder == "Laws" else []
    here = names if stay is None else [n for n in names if n.split(" as ")[0] in stay]
    there = [n for n in names if n not in here]
    lines = [f"{head}{where}.{folder}.{module}.{{{', '.join(of)}}}" for where, of in (("specs", here), ("proofs", there)) if of]
    return "\n".join(lines)


def paragraph(text, name):
    """The declaration of name with its comment, cut out of the text."""
    m = re.search(rf"(?m)(?:^--(?! ----)[^\n]*\n)*^(?:abbrev |unfoldable )?pub (?:record )?{name}\b[^\n]*\n(?:[^\n]+\n)*", text)
    assert m, name
    return m.group(), text[: m.start()] + text[m.end() :].lstrip("\n")


def used(line, text):
    """The use line with the names alone that the text has."""
    words = set(re.findall(r"[^\s(){}.;,@]+", text))
    head, names = re.match(r"(use [^{]*)\{([^}]*)\}", line).groups()
    kept = [n for n in names.split(", ") if all(p in words for p in n.split("◌") if p)]
    return f"{head}{{{', '.join(kept)}}}\n" if kept else ""


os.makedirs(f"{STORE}/proofs", exist_ok=True)
for it in ("Laws", "Laws.antt", "Promises", "Promises.antt"):
    subprocess.run(["git", "mv", f"{STORE}/specs/{it}", f"{STORE}/proofs/{it}"], check=True)
os.makedirs(f"{STORE}/specs/Laws")
subprocess.run(["git", "mv", f"{STORE}/proofs/Laws/Lent.antt", f"{STORE}/specs/Laws/Lent.antt"], check=True)
write(f"{STORE}/proofs/Lib.antt", "pub mod Laws\npub mod Promises\n")
lib = read(f"{STORE}/specs/Lib.antt").replace("pub mod Promises\n", "")
write(f"{STORE}/specs/Lib.antt", lib)
write(f"{STORE}/proofs/Laws.antt", read(f"{STORE}/proofs/Laws.antt").replace("pub mod Lent\n", ""))
write(f"{STORE}/specs/Laws.antt", "".join(f"pub mod {m}\n" for m in ("Slots", "Edits", "Views", "Compactify", "Lent")))
for module, names in STAY.items():
    if names is None:
        continue
    p = f"{STORE}/proofs/Laws/{module}.antt"
    t = read(p)
    out = []
    head = re.findall(r"(?m)^use [^\n]*$", t)
    for n in names:
        d, t = paragraph(t, n)
        out.append(d)
    uses = "".join(used(u, "\n".join(out)) for u in head)
    first = re.search(r"(?m)^use ", t).start()
    last = [m.end() for m in re.finditer(r"(?m)^use [^\n]*\n", t)][-1]
    t = t[:last] + f"use Rattle.store.specs.Laws.{module}.{{{', '.join(names)}}}\n" + t[last:]
    write(p, t)
    write(f"{STORE}/specs/Laws/{module}.antt", "-- What contracts cite of proofs/Laws/" + module + ".antt.\n" + uses + "\n" + "\n".join(out))
for folder, dirs, files in os.walk("crates"):
    dirs[:] = [d for d in dirs if d != "out"]
    for f in files:
        if f.endswith(".antt"):
            p = os.path.join(folder, f)
            t = read(p)
            new = USE.sub(split, t)
            if new != t:
                write(p, new)
