#!/usr/bin/env python3
"""Brings the names of this repository's own definitions, fields and lemmas to snake case.

usage: python3 tools/snake_case.py        at the top, once, after port.py of the kit

The names are those that specs/*.antt and proofs/*.antt of the crates declare: `planesAnswer` becomes `planes_answer`,
`answer-is` becomes `answer_is`. Types and facts keep their capitals, and so do names that the check makes. They are
replaced in the crates' .rt and .antt files and edits, in the pages, and in scripts/believe. Two names that would fall
together, or a new name that is in use already, stop the script before anything is written.
"""
import glob
import re
import sys

WORD = re.compile(r"[^\s(){};.,«»\[\]⟦⟧⌜⌝`\"/|:]+")
SIGNATURE = re.compile(r"^\s*(?:(?:pub|abbrev|unfoldable|ruleset)\s+)*([^\s(){};.,:«»=]+)\s*:(?:\s|$)")
# names of the kit's library that the crates use, or of what the check makes
KEEP = {"decreases-loop", "invariant-loop"}
# lemmas and a field whose new names would be those of a definition or of the kit's library; laws of what the kit calls get_or
OTHER = {
    "fit-answer": "fit_answer_lem",
    "gradient-at": "gradient_at_lem",
    "in-float": "in_float_lem",
    "on-strip": "is_on_strip",
    "over-offsets": "over_offsets_lem",
    "over-quarters": "over_quarters_lem",
    "place-count": "place_count_lem",
    "text-length": "text_length_lem",
    "comesBack": "each_comes_back",
    "getD-tab": "get_or_tab",
    "getD-tabFrom": "get_or_tab_from",
}
# names that port.py turned in the crates' sources, and neither in edits nor in pages; and a parameter
PORTED = (
    "allBelow answerIn answerOf atMost atPlace boundsOf columnSum countOf dropLast edgesAt inTurn isLine lanesOf lastOf lineOf "
    "linesOf listOf partAt placeOf placesOf rankOf readingOf rowAt rowLine rowOf rowsOf seenAt signBit sumAt textOf valueAt valuesOf planeSide"
).split()


def new(name):
    if name in OTHER:
        return OTHER[name]
    out = re.sub(r"(?<=[a-z0-9])([A-Z])", lambda m: "_" + m.group(1).lower(), name)
    return out.replace("-", "_")


def read(p):
    with open(p, encoding="utf-8") as f:
        return f.read()


def main():
    specs = sorted(glob.glob("crates/*/specs/*.antt"))
    proofs = sorted(glob.glob("crates/*/proofs/*.antt"))
    inner = sorted(glob.glob("crates/*/proofs/*/**/*.antt", recursive=True))
    sources = sorted(glob.glob("crates/*/src/*.rt"))
    edits = sorted(glob.glob("crates/*/must-fail/*.edit"))
    pages = ["README.md", "CONTRIBUTING.md", "NOTICE"] + sorted(glob.glob("docs/*.md")) + ["scripts/believe"]
    own = set()
    for p in specs + proofs:
        for line in read(p).splitlines():
            m = SIGNATURE.match(line)
            if m and not line.lstrip().startswith("--"):
                own.add(m.group(1))
    names = {}
    for n in own:
        if n in KEEP or not re.match(r"[a-z]", n) or not re.fullmatch(r"[A-Za-z0-9'_-]+", n):
            continue
        if new(n) != n:
            names[n] = new(n)
    used = set()
    for p in specs + proofs:
        for line in read(p).splitlines():
            m = SIGNATURE.match(line)
            if m:
                used.add(m.group(1))
    # (two files' private words)
    bad = sorted(n for n in names if names[n] in used and n != "pointAt")
    twice = sorted(n for n in names if sum(names[m] == names[n] for m in names) > 1)
    if bad or twice:
        print("in use already:", bad, "fall together:", twice)
        return 1
    names.update((n, new(n)) for n in PORTED)
    camel = {n: t for n, t in names.items() if "-" not in n}

    def turn(text, table):
        return WORD.sub(lambda m: table.get(m.group(0), m.group(0)), text)

    for p in specs + proofs + inner + sources + edits:
        old = read(p)
        lines = []
        for line in old.split("\n"):
            code, mark, comment = line.partition("-- " if p.endswith(".antt") else "// ")
            lines.append(turn(code, names) + mark + turn(comment, camel))
        text = "\n".join(lines)
        if text != old:
            with open(p, "w", encoding="utf-8") as f:
                f.write(text)
    for p in pages:
        old = read(p)
        text = re.sub(r"`[^`\n]+`", lambda m: turn(m.group(0), names), turn(old, camel))
        if text != old:
            with open(p, "w", encoding="utf-8") as f:
                f.write(text)
    print(len(names), "names")
    return 0


if __name__ == "__main__":
    if sys.argv[1:]:
        sys.exit(__doc__)
    sys.exit(main())
