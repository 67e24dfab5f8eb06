#!/usr/bin/env python3
"""Spells this repository's own definitions and lemmas in snake case: `writeCall` and `low-waits` become `write_call` and `low_waits`.

usage: python3 tools/snake_names.py [--check]      at the top of the repository, once, straight after port.py

What turns: each name that an .antt file of the repository declares (definition, lemma, field, constructor, binder, alias), in the .antt
files, in the clauses and `ghost use` lines of the .rt files and in the code spans of the pages. Types, modules and constructors in capitals stay, and so does every name
of the library, of the code and of what the check makes. Where two names would fall together, LAWS gives the lemma another name.
"""

import collections
import glob
import re
import sys

# two names that differed in their spelling alone: the lemma, by the folder that holds it, gets a name of its own
LAWS = {
    ("bench", "block-write"): "block_write_case",
    ("vram", "mask-load"): "mask_load_sets",
    ("vram", "colour-load"): "colour_load_sets",
    ("colours", "pixel-refused"): "refused_pixel",
    ("colours", "one-sync"): "one_sync_asked",
    ("colours", "both-syncs"): "both_syncs_asked",
    ("colours_c", "moved_on"): "moved_on_is",
    ("colours_c", "held-excluded"): "held_excluded_keeps",
    ("colours_c", "held_low"): "held_low_is",
    ("colours_c", "held-write"): "held_write_is",
    ("colours_c", "held_high"): "held_high_is",
    ("colours_c", "held-pixel"): "held_pixel_is",
    ("colours_c", "held_after"): "held_after_is",
    ("colours_c", "held-session"): "held_session_is",
    ("controller_c", "held-session"): "held_session_is",
    ("colours_c", "held-passing"): "held_passing_is",
    ("colours_c", "held-came"): "held_came_is",
    ("controller_c", "number-of"): "number_of_update",
    ("colours_c", "waiting-ok"): "waiting_part_ok",
    ("pieces_c", "handedTaken"): "handed_below_taken",
    ("pieces_c", "below_end"): "below_end_alike",
    ("pieces_c", "below-take"): "below_take_alike",
    ("words", "bit-and"): "bit_of_and",
    ("words", "bit-or"): "bit_of_or",
    ("words", "bit-xor"): "bit_of_xor",
    ("controller_c", "fetch-excluded"): "fetch_excluded_is",
    ("controller_c", "held-call"): "held_call_is",
    ("controller_c", "held-fetch"): "held_fetch_is",
    ("list", "head-number"): "head_number_is",
    ("list", "is_open"): "is_open_number",
    ("marks", "first-number"): "first_number_is",
    ("marks", "first-marked"): "first_marked_is",
    ("pieces", "goes_on"): "goes_on_makes",
    ("marks_apart", "fast-marked"): "fast_marked_is",
    ("marks_apart", "plain-marked"): "plain_marked_is",
    ("palette", "answer-of"): "byte_of",
    ("palette", "colour-read"): "colour_read_is",
    ("palette", "colour-writes"): "colour_writes_is",
    ("panel", "pixel-of"): "pixel_of_bytes",
    ("pencil", "with-bit"): "with_bit_is",
    ("pieces", "number-on"): "number_on_alike",
    ("planner", "by-words"): "by_words_bound",
    ("planner", "by_blocks"): "by_blocks_bound",
    ("planner", "block-row"): "block_row_within",
    ("planner", "mapAt"): "mapped_at",
    ("vram", "half-clock"): "half_clock_is",
    ("vram", "half-clocks"): "half_clocks_is",
    ("vram", "stop-length"): "stop_length_of",
    ("words", "of-bits"): "of_bits_unique",
}

NAME = r"[^\s(){}.;,@\"«»:]+"
DECLARED = re.compile(rf"(?m)^ *(?:(?:abbrev|unfoldable|pub) +)*({NAME}) *(?:\{{[^{{}}]*\}} *)*:(?= |$)")
BOUND = re.compile(rf"[({{]((?:{NAME} +)+): ")
ALIAS = re.compile(rf" as ({NAME})(?=[\s,}}])")
LOCAL = re.compile(rf"\blet ({NAME}) (?::|=)")
USE = re.compile(r"(?m)^ *(?:pub +)?use +([^\s;{]+?)\.?\{([^}]*)\}")
WORD = re.compile(r"[^\s(){}.;,@\"«»`]+")
COMMENT = re.compile(r"(?m)(?:^|(?<=\s))--.*$")
CLAUSE = re.compile(r"(?:requires|ensures|ghost)\*? *(?:\w+:? *)?\{")
GHOST_USE = re.compile(r"ghost\s+use\b[^;]*;")


def snake(name):
    return re.sub(r"(?<=[a-z0-9])[A-Z]", lambda m: "_" + m[0].lower(), name).replace("-", "_")


def turns(name):
    return name[0].islower() and bool(re.search(r"[A-Za-z0-9']-[A-Za-z0-9]|[a-z0-9][A-Z]", name))


def crate(path):
    return path.split("/")[1]


def own(path):
    """A module path of this repository."""
    steps = path.split(".")
    return steps[0] == "Rattle" and len(steps) > 1 and steps[1] in CRATES


def antt(root):
    return sorted(glob.glob(root + "crates/*/specs/**/*.antt", recursive=True) + glob.glob(root + "crates/*/proofs/**/*.antt", recursive=True))


def walk(path):
    """A file of one function's proof, which cites names that the check makes."""
    return bool(re.search(r"/proofs/.+/(Proof|Answers|Invariants)\.antt$", path))


CRATES = {c.split("/")[1] for c in glob.glob("crates/*/src")}


def pages(declared, table):
    """The names in the code spans of README.md and docs/, from whichever older spelling they have."""
    news = {table.get(n, n) for n in declared} | set(LAWS.values())
    laws = {}
    for (c, n), new in LAWS.items():
        laws.setdefault(n if turns(n) else n.replace("_", "-"), new)

    def turn(m):
        w = m[0].replace("′", "'")
        if w in laws:
            return laws[w]
        return snake(w) if turns(w) and snake(w) in news else m[0]

    n = 0
    for p in ["README.md"] + sorted(glob.glob("docs/**/*.md", recursive=True)):
        t = open(p, encoding="utf-8").read()
        new = re.sub(r"`[^`\n]+`", lambda s: "`" + WORD.sub(turn, s[0][1:-1]) + "`", t)
        if new != t:
            n += 1
            if "--check" not in sys.argv:
                open(p, "w", encoding="utf-8").write(new)
    return n


def main():
    texts = {p: open(p, encoding="utf-8").read() for p in antt("")}
    declared = collections.defaultdict(set)
    lent = collections.defaultdict(set)
    for p, t in texts.items():
        code = COMMENT.sub("", t)
        for m in USE.finditer(code):
            if not own(m[1]):
                lent[p] |= {n for item in m[2].split(",") for n in item.split(" as ")[:1] for n in [n.strip()]}
        names = set(DECLARED.findall(code)) | set(ALIAS.findall(code)) | set(LOCAL.findall(code))
        for m in BOUND.finditer(code):
            names |= set(m[1].split())
        if walk(p):
            # a walk's own names that are those of what the check makes stay
            names = {n for n in names if not re.match(r"(returns|overflow|loop|invariant|decreases|in|then|else|if)-", n)}
        for n in names:
            declared[n].add(crate(p))
    # bound by a line of a definition, without a type beside it
    declared["serialResults"].add("marks_apart")
    table = {n: snake(n) for n in declared if turns(n)}
    declared_in = {p: set(DECLARED.findall(COMMENT.sub("", t))) | set(ALIAS.findall(t)) for p, t in texts.items()}
    uses = {}
    law_files = collections.defaultdict(set)
    for (c, n) in LAWS:
        for p in texts:
            if crate(p) == c and n in declared_in[p]:
                law_files[(c, n)].add("Rattle." + p[len("crates/"):-len(".antt")].replace("/", "."))

    def find_uses(t):
        found = collections.defaultdict(set)
        for m in USE.finditer(t):
            path = m[1].rstrip(".")
            for item in m[2].split(","):
                n = item.strip().split(" as ")[0]
                for (c, law), files in law_files.items():
                    if law == n and path in files:
                        found[c].add(n)
        return found

    for p, t in texts.items():
        uses[p] = find_uses(t)

    def in_file(p, t):
        here = dict(table)
        for n in lent.get(p, ()):
            here.pop(n, None)
        module = "Rattle." + p[len("crates/"):-len(".antt")].replace("/", ".")
        for (c, n), new in LAWS.items():
            if module in law_files[(c, n)] or n in uses[p].get(c, set()):
                here[n] = new
        return here

    changed = 0
    for p, t in texts.items():
        here = in_file(p, t)
        generated = walk(p)

        def turn(m):
            w = m[0]
            if w not in here:
                return w
            if generated and m.start() and m.string[m.start() - 1] == "." and not re.search(r"(?:Rattle\.[\w.']+|\b[a-z]\w*)\.$", m.string[max(0, m.start() - 80):m.start()]):
                return w
            return here[w]

        met = collections.defaultdict(set)
        for w in set(WORD.findall(COMMENT.sub("", t))):
            met[here.get(w, w)].add(w)
        for w, ws in met.items():
            if len(ws) > 1:
                print("look:", p, w, sorted(ws))
        new = WORD.sub(turn, t)
        if new != t:
            changed += 1
            if "--check" not in sys.argv:
                open(p, "w", encoding="utf-8").write(new)
    for p in sorted(glob.glob("crates/*/src/**/*.rt", recursive=True)):
        t = open(p, encoding="utf-8").read()
        uses[p] = find_uses(t)
        law = {}
        for (c, n), new in LAWS.items():
            if n in uses[p].get(c, set()):
                law[n] = new
        here = {**table, **law}
        spans = [(m.start(), m.end()) for m in GHOST_USE.finditer(t)]
        for m in CLAUSE.finditer(t):
            depth, i = 1, m.end()
            while depth and i < len(t):
                depth += {"{": 1, "}": -1}.get(t[i], 0)
                i += 1
            spans.append((m.end(), i - 1))
        out, at = [], 0
        for a, b in sorted(spans):
            if a < at:
                continue
            out += [t[at:a], WORD.sub(lambda m: here.get(m[0], m[0]), t[a:b])]
            at = b
        new = "".join(out + [t[at:]])
        if new != t:
            changed += 1
            if "--check" not in sys.argv:
                open(p, "w", encoding="utf-8").write(new)
    print(f"{len(table)} names, {changed} files, {pages(declared, table)} pages")


if __name__ == "__main__":
    main()
