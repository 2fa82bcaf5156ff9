#!/usr/bin/env python3
"""Counts the places of docs/DESIGN-PASS.md in crates/*/src: tools/places.py [COMMIT] [-v]; with -v each place is printed."""
import re
import subprocess
import sys

FORMS = [
    ("1a", "enums of the repository's own", r"^(pub )?enum \w+"),
    ("1b", "a flag beside a value: fields of type bool", r"^\s+(pub )?\w+: bool,"),
    ("1c", "numbers for kinds and refusals: parameters and results",
     r"deeds: &(mut )?\[u8|kind: usize|edition: usize|what: u64|answer: (&mut )?u(size|64)\b|\b(d|freed): u8|fn \w+\(.*\) -> u8\b|fn \w+_no\("),
    ("2a", "functions that read, write or name a number by its width", r"^(pub )?fn (get_u|put_u|wide\b)"),
    ("2b", "constants that stand twice", r"^(pub )?const (ONES|HALF|CLASSES|WORDS|BLOCK|BEFORE)\b"),
    ("3a", "while and loop", r"^\s*('\w+: )?(while|loop)\b"),
    ("3b", "for over a range of numbers", r"^\s*('\w+: )?for \w+ in .*\.\."),
    ("4", "minimum, difference, equality, conversion and a slot's kind by hand",
     r"^(pub )?fn (lesser|lower|least|less|low_with|apart|same_header|same_inventory|is_free|is_record|is_target|len_of|off_of|wide|slot_after|page_after"
     r"|offset_of|length_of|\w+_no|answer_id|\w+_rows|\w+_count|\w+_records|\w+_length|\w+_passed|\w+_yes)\("),
    ("5a", "a page's length in a clause", r"length (page|q)\.(now|old) ≡ 16384"),
    ("5b", "facts about a value in three clauses or more",
     r"\b(requires|×).*\b(UsedSlot|UsedPage|Codable|Within|SoundOn|TakenOn|Sizes|RootIs|Known|KnownSound|CountedPage|Counted|UsedPageOn|UsedOn|Room|Follows)\b"),
    ("5c", "segment and inventory together", r"segment: &mut \[u8\], inventory|^\s+inventory: &(mut )?\[u8\],"),
    ("6", "a buffer with its length or place beside it", r"\b(at|n|next|done|end): usize.*entries|entries.*\bat: usize|t: &(mut )?\[usize\], n: usize|deeds: &(mut )?\[u8"),
    ("7", "a switch on which step to run", r"^\s+_ => 8,$"),
]


def files(commit):
    names = subprocess.run(["git", "ls-tree", "-r", "--name-only", commit, "crates"], capture_output=True, text=True, check=True).stdout.split()
    for name in names:
        if re.match(r"crates/\w+/src/.*\.rt$", name):
            yield name, subprocess.run(["git", "show", commit + ":" + name], capture_output=True, text=True, check=True).stdout


def main():
    words = [w for w in sys.argv[1:] if w != "-v"]
    texts = list(files(words[0] if words else "HEAD"))
    for key, what, form in FORMS:
        found = [(name, k, line) for name, text in texts for k, line in enumerate(text.split("\n"), 1)
                 if re.search(form, line) and not line.lstrip().startswith("//")]
        print(f"{key:3} {len(found):4}  {what}")
        if "-v" in sys.argv:
            for name, k, line in found:
                print(f"      {name}:{k}: {line.strip()}")


main()
