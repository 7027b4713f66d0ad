#!/usr/bin/env python3
"""Lists the places in src/ that a design pass looks at, point by point.

    python3 tools/places.py [FOLDER]      FOLDER is the top of a checkout; default: the one that this file stands in

Each line is FILE:LINE and the text. A line that is listed is a place to look at, and not yet a fault.
"""
import difflib
import itertools
import pathlib
import re
import sys

POINTS = [
    ("1 results, kinds and refusals", [
        r"\benum\b",
        r"BTreeMap<u8|HashMap<u8|\bself as u8|\bas u8\b",
        r"\.is_(ok|err|some|none)\(\)",
        r"return (Err|None)\b",
        r"Err\(.*\) => (return )?(Err|Unreadable)",
    ]),
    ("3 loops", [
        r"\b(while|loop)\b.*\{",
        r"\bfor\b.*\bin\b.*\{",
        r"\+= 1\b|saturating_add\(1\)",
    ]),
    ("4 equality, order, copying, conversion, printing", [
        r"^\s*impl\b.* for ",
        r"\bfn (eq|cmp|partial_cmp|clone|from|from_\w+|to_\w+|into_\w+|named|word|number|plus|fmt)\b",
    ]),
    ("6 buffers", [
        r"\bVec<|BTreeMap<|HashMap<|IndexMap<",
        r"\[0u8; \d+\]|\[u8; \d+\]|\[\[u8; \d+\]\]",
        r"\bfn place\b|\.enumerate\(\)|\.position\(",
    ]),
    ("7 switches", [
        r"\bmatch\b",
        r"\bdyn\b|\bFn(Mut|Once)?\(",
    ]),
]


def sources(top):
    for path in sorted(top.glob("crates/*/src/**/*.rt")):
        yield path.relative_to(top), path.read_text().split("\n")


def code(line):
    return re.sub(r'"(\\.|[^"\\])*"', '""', line).split("//")[0]


def by_words(top):
    for title, patterns in POINTS:
        found = [
            (path, number, line.strip())
            for path, lines in sources(top)
            for number, line in enumerate(lines, 1)
            if not line.strip().startswith(("//", "ghost", "ensures", "requires", "use "))
            and any(re.search(pattern, code(line)) for pattern in patterns)
        ]
        print(f"== {title}: {len(found)}")
        for path, number, line in found:
            print(f"{path}:{number}: {line}")


def functions(top):
    """Each function: where it stands, its name, its parameters, its clauses and its body."""
    for path, lines in sources(top):
        text = "\n".join(lines)
        for match in re.finditer(r"^[ \t]*(?:pub(?:\(crate\))? )?(?:extern \"C\" )?fn (\w+)", text, re.M):
            start = text.index("(", match.end())
            depth, end = 0, start
            for end in range(start, len(text)):
                depth += {"(": 1, ")": -1}.get(text[end], 0)
                if depth == 0:
                    break
            parameters = text[start + 1:end]
            head, rest = [], text[end + 1:]
            indent = re.match(r"[ \t]*", match.group(0)).group(0)
            close = rest.find("\n" + indent + "}")
            whole = rest[:close if close >= 0 else len(rest)]
            clauses = re.findall(r"^\s*(?:requires|ensures)[^{\n]*\{(.*)\}$", whole, re.M)
            body = re.split(r"\{\s*\n", whole)[-1] if not clauses else whole.split(clauses[-1] + "}")[-1]
            number = text.count("\n", 0, match.start()) + 1
            yield path, number, match.group(1), parameters, clauses, body


def twins(top):
    def plain(body):
        body = re.sub(r"//.*", "", body)
        body = re.sub(r"\b(0x[0-9A-Fa-f_]+|\d[\d_]*)\b", "N", body)
        return re.sub(r"\b[A-Za-z_]\w*\b", "w", body).split()

    named = [(f"{p}:{n} {f}", plain(b)) for p, n, f, _, _, b in functions(top)]
    pairs = []
    for (a, x), (b, y) in itertools.combinations(named, 2):
        if min(len(x), len(y)) >= 6:
            like = difflib.SequenceMatcher(None, x, y, autojunk=False).ratio()
            if like >= 0.6:
                pairs.append((like, a, b))
    print(f"== 2 pairs of functions whose bodies are alike when names and numbers are left out: {len(pairs)}")
    for like, a, b in sorted(pairs, reverse=True):
        print(f"{like:.2f} {a} / {b}")


def together(top):
    groups, facts = {}, {}
    for path, number, name, parameters, clauses, _ in functions(top):
        here = f"{path}:{number} {name}"
        typed = sorted(set(re.findall(r"(\w+): ([^,]+)", " ".join(parameters.split()))))
        for pair in itertools.combinations(typed, 2):
            groups.setdefault(pair, []).append(here)
        for clause in set(c.strip() for c in clauses):
            facts.setdefault(clause, []).append(here)
    kept = {k: v for k, v in groups.items() if len(v) >= 3}
    print(f"== 5 parameters that travel together in three functions or more: {len(kept)}")
    for pair, where in kept.items():
        print(", ".join(f"{n}: {t}" for n, t in pair), "|", "; ".join(where))
    kept = {k: v for k, v in facts.items() if len(v) >= 3}
    print(f"== 5 clauses that stand in three functions or more: {len(kept)}")
    for clause, where in kept.items():
        print(clause, "|", "; ".join(where))


def proofs(top):
    print("== 8 proofs: answer files, lines of them, lemma files, lines of them")
    for crate in sorted(top.glob("crates/*")):
        answers = [p for p in crate.glob("proofs/*/**/*.antt")]
        lemmas = [p for p in crate.glob("proofs/*.antt") if p.name != "Lib.antt"]
        size = lambda paths: sum(len(p.read_text().split("\n")) - 1 for p in paths)
        print(f"{crate.name}: {len(answers)} {size(answers)} {len(lemmas)} {size(lemmas)}")


if __name__ == "__main__":
    top = pathlib.Path(sys.argv[1] if len(sys.argv) > 1 else pathlib.Path(__file__).parent.parent)
    by_words(top)
    twins(top)
    together(top)
    proofs(top)
