#!/usr/bin/env python3
"""Brings the repository's own names to today's spelling, once, after the kit's port.py.

Definitions and lemmas are in snake case; a dash joins two names, and a plain word is added with an underscore. A type
keeps its capital inside a name. The crate `hex` becomes `hexadecimal`, since the kit has a library of that name.
Functions of src/, texts, inputs and outputs keep their names. Run it at the top of the repository.
"""

import re
import subprocess
import sys
from pathlib import Path

# Names of definitions, here or in the library, that lemmas are named after.
NAMES = set(
    """
    additive after all and append bit blocks clear cleared congruent cond decoded digits digitwise divided drop end
    filled first fold folded high holes inverse inverse64 joined length low lowered middle modulus more none odds
    Octets one or parts pdot polynomial pow product quotient records remainder same shl some step sum sums sub suc tag
    take two upto Upto written xor zero zeros chunked dbl lt comm assoc pairs united shr covered keystream remark found
    """.split()
)

# Words that read as plain words where they end a name, as in `product_comm` and `remainder_lt`.
PLAIN = {
    "after", "all", "bit", "comm", "assoc", "lt", "dbl", "end", "first", "found", "middle", "more", "none", "parts",
    "step", "some", "low", "one", "two", "clear", "holes", "divided", "quotient", "records", "zeros",
}

# What the rule below does not give.
SPECIAL = {
    "upTo-same": "up_to_same",
    "octets-rest": "Octets-append_rest",
    "octets-drop": "Octets-drop",
    "octets-take": "Octets-take",
    "octets-cleared": "Octets-cleared",
    "octets-sums": "Octets-sums",
    "upto-odds": "Upto-odds",
    "upto_zero": "Upto-zero",
    "upto-suc": "Upto-suc",
    "upto-more": "Upto-add",
    "upto-sum": "Upto-sum",
    "all-chunked": "All-first_chunks",
    "chunked-take": "first_chunks-take",
    "chunked-joined": "first_chunks-flat_map",
    "joined-chunked": "flat_map-first_chunks",
    "length_chunked": "length-first_chunks",
    "length-joined": "length-flat_map",
    "check-end": "check_end",
    "check-fault": "check_fault",
    "answer-exact": "answer_exact",
    "answer-rewritten": "answer_rewritten",
    "aadBits": "aad_bits",
    "E": "e_bytes",
    "U": "u_bytes",
}

DEFINED = re.compile(r"^\s*(?:abbrev |unfoldable )?(?:pub )?([A-Za-z][\w'\-]*) ?(?:\{[^}]*\})? :", re.M)


def respelled(name):
    """The name in today's spelling."""
    if name in SPECIAL:
        return SPECIAL[name]
    if "-" not in name:
        if name[0].islower():
            return re.sub(r"([a-z])([A-Z])", lambda m: m.group(1) + "_" + m.group(2).lower(), name)
        return name
    parts = [re.sub(r"([a-z])([A-Z])", lambda m: m.group(1) + "_" + m.group(2).lower(), p) for p in name.split("-")]
    out = parts[0]
    for left, right in zip(parts, parts[1:]):
        joined = left in NAMES and right in NAMES and right not in PLAIN
        out += ("-" if joined else "_") + right
    return out


def files(pattern):
    listed = subprocess.run(
        ["git", "ls-files", "-co", "--exclude-standard", pattern], capture_output=True, text=True, check=True
    )
    return sorted({Path(line) for line in listed.stdout.splitlines() if Path(line).is_file()})


def table():
    """Each name that changes, with its new spelling; a name that falls together with another stops the run."""
    names = set()
    for path in files("crates/*.antt"):
        if path.name not in ("Answers.antt", "Invariants.antt"):
            names |= set(DEFINED.findall(path.read_text()))
    names |= {"aadBits", "check-end", "check-fault", "answer-exact", "answer-rewritten"}
    turned = {name: respelled(name) for name in names if respelled(name) != name}
    after = list(turned.values()) + sorted(names - set(turned))
    doubled = sorted({name for name in after if after.count(name) > 1})
    if doubled:
        sys.exit("names that fall together: " + " ".join(doubled))
    return turned


def whole(names):
    return re.compile(r"(?<![\w'\-])(" + "|".join(sorted(map(re.escape, names), key=len, reverse=True)) + r")(?![\w'\-])")


def ghost_parts(text, turn):
    """Only what speaks to the proof in a source file: imports, clauses, ghost fields."""
    lines = []
    for line in text.split("\n"):
        stripped = line.strip()
        if re.match(r"(ghost |requires|ensures)", stripped):
            lines.append(turn(line))
        else:
            lines.append(line)
    return "\n".join(lines)


def move_crate(old, new):
    if not Path("crates", old).is_dir():
        return
    Path("crates", old).rename(Path("crates", new))
    for path in files("crates/*.antt") + files("crates/*.rt"):
        text = path.read_text()
        text = text.replace(f"Rattle.{old}.", f"Rattle.{new}.")
        text = re.sub(rf"(?<![\w:]){old}::", f"{new}::", text)
        path.write_text(text)
    path = Path("crates.txt")
    path.write_text(re.sub(rf"\b{old}\b", new, path.read_text()))


def main():
    turned = table()
    pattern = whole(turned)

    def turn(text):
        return pattern.sub(lambda m: turned[m.group(1)], text)

    for path in files("crates/*.antt"):
        path.write_text("\n".join(turn(line) if not line.lstrip().startswith("-- ") else line
                                  for line in path.read_text().split("\n")))
    for path in files("crates/*.rt"):
        path.write_text(ghost_parts(path.read_text(), turn))
    move_crate("hex", "hexadecimal")
    for name in sorted(turned):
        print(f"{name} -> {turned[name]}")


main()
