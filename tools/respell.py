#!/usr/bin/env python3
"""Brings the repository's own definitions and lemmas to today's spelling: words in snake case, types in camel case.

Run once at the top, after the kit's own script for older repositories. It goes by text: in .antt files outside comments,
in the clauses, ghost items and ghost use lines of .rt files, and in must-fail edits of .antt files. Names that the
library or the prover made keep their spelling.
"""
import glob
import os
import re
import sys

WORD = r"[^\s(){}\[\].,;:«»\"]+"
TOKEN = re.compile(WORD)
GIVEN = {"Answers.antt", "Invariants.antt", "Proof.antt", "Choices.antt"}
# names that would be a function's of src/
SPECIAL = {
    "count-links": "count_links_lem",
    "league-points": "league_points_of",
    "pair-across": "pair_across_lem",
    "pair-beside": "pair_beside_lem",
    "points-text": "points_text_of",
    "signed-halves": "signed_halves_text",
    "total-at": "total_at_lem",
    "triangle-stands": "triangle_stands_lem",
}


def read(path):
    with open(path, encoding="utf-8") as f:
        return f.read()


def write(path, text):
    with open(path, "w", encoding="utf-8") as f:
        f.write(text)


def given(path):
    return os.path.basename(path) in GIVEN and "/proofs/" in path and path.split("/proofs/")[1].count("/") > 0


def no_comment(line):
    at = re.search(r"(^|\s)--(\s|$)", line)
    return (line, "") if not at else (line[: at.start()], line[at.start() :])


DECLARED = re.compile(r"^\s*(?:\| )?(?:(?:unfoldable|abbrev|pub|axiom|record|data) )*(" + WORD + r")(?: [({].*)? ?:(?: |$)")
ALONE = re.compile(r"^\s*(?:(?:unfoldable|abbrev|pub) )*(" + WORD + r")$")


def hyphened(name):
    return re.fullmatch(r"[A-Za-z][\w'′₀-₉]*(?:-[\w'′₀-₉]+)+", name)


def own_names(files):
    own = set()
    for path in files:
        lines = read(path).split("\n")
        for i, line in enumerate(lines):
            line, _ = no_comment(line)
            alone = ALONE.match(line)
            if alone and i + 1 < len(lines) and re.match(r"\s+: ", lines[i + 1]):
                own.add(alone.group(1))
            if re.match(r"\s*use ", line):
                continue
            at = DECLARED.match(line)
            if at and not re.search(r": goal\.", line) and "Goals" not in line:
                own.add(at.group(1))
            for it in re.finditer(r"(?:let |λ )(?:\()?(" + WORD + r"(?: " + WORD + r")*)", line):
                for w in it.group(1).split():
                    if w == "=":
                        break
                    own.add(w)
            for it in re.finditer(r"[({]((?:" + WORD + r" )+):", line):
                own |= set(it.group(1).split())
            for it in re.finditer(r"(?:let |λ )\((.*?)\) [=.:]", line + " "):
                own |= set(TOKEN.findall(it.group(1)))
            for it in re.finditer(r"\b(?:inl|inr|Some|Ok|Err) \(?((?:[^()\[\]|])*?)\)? ↦", line):
                own |= set(TOKEN.findall(it.group(1)))
    return {n for n in own if hyphened(n)}


def taken(files):
    """Names that files import from elsewhere than this repository's own specs and proofs."""
    names = {}
    for path in files:
        for it in re.finditer(r"use ([\w.+◌'-]+)\.\{([^}]*)\}", read(path)):
            if re.match(r"Rattle\.(" + "|".join(CRATES) + r")\.", it.group(1)) and ".Goals" not in it.group(1):
                continue
            for n in it.group(2).split(","):
                n = n.strip().split(" as ")[0]
                names.setdefault(n, set()).add(path)
    return names


def new_name(name):
    if name in SPECIAL:
        return SPECIAL[name]
    parts = name.replace("getD", "get_or").split("-")
    if name[0].isupper() and parts[0] != "T":
        return "".join(p[:1].upper() + p[1:] for p in parts)
    return "_".join(parts)


def turned(text, names, path):
    """The text with each own name respelled; labels that the prover makes stay."""
    out, last = [], 0
    for at in TOKEN.finditer(text):
        w = at.group(0)
        if w in names:
            before = text[: at.start()]
            if given(path) and re.search(r"(?:\b(?:c|w|l|goal|fn|initial)|in_\w+|loop-[\w-]+)\.$", before):
                continue
            out.append(text[last : at.start()] + names[w])
            last = at.end()
    return "".join(out) + text[last:]


def turn_antt(text, names, path):
    kept = set(re.findall(r"^(?:abbrev )?(?:pub )?(?:abbrev )?(\S+) : (?:goal|.*Goals)\.", text, re.M)) if given(path) else set()
    here = {k: v for k, v in names.items() if k not in kept}
    lines = []
    for line in text.split("\n"):
        code, comment = no_comment(line)
        lines.append(turned(code, here, path) + comment)
    return "\n".join(lines)


def turn_rt(text, names, path):
    out = []
    for line in text.split("\n"):
        if re.match(r"\s*//", line):
            out.append(line)
            continue
        code, at, comment = line, line.find(" // "), ""
        if at >= 0 and line.count('"') % 2 == 0:
            code, comment = line[:at], line[at:]
        if '"' in code:
            out.append(line)
            continue
        out.append(turned(code, names, path) + comment)
    return "\n".join(out)


def turn_edit(text, names, path):
    if not re.search(r"^file: .*\.antt$", text, re.M):
        return text
    return "\n".join(turned(l, names, path) if re.match(r"(old|new): ", l) else l for l in text.split("\n"))


def main():
    global CRATES
    CRATES = sorted(os.listdir("crates"))
    antt = [p for p in glob.glob("crates/*/specs/**/*.antt", recursive=True) + glob.glob("crates/*/proofs/**/*.antt", recursive=True)]
    rt = glob.glob("crates/*/src/**/*.rt", recursive=True)
    names = {n: new_name(n) for n in own_names(antt)}
    foreign = taken(antt + rt)
    for n in sorted(names):
        if n in foreign:
            print("left, as the library has it too:", n, sorted(foreign[n])[:2])
            del names[n]
    every = set()
    for p in antt + rt:
        every |= set(TOKEN.findall(read(p)))
    seen = {}
    for n, m in sorted(names.items()):
        if m in every or m in seen:
            print("falls together:", n, "->", m, "with", seen.get(m, "a name that is there"))
        seen[m] = n
    if "--dry" in sys.argv:
        for n, m in sorted(names.items()):
            print(n, m)
        return
    for p in antt:
        write(p, turn_antt(read(p), names, p))
    for p in rt:
        write(p, turn_rt(read(p), names, p))
    for p in glob.glob("crates/*/must-fail/*.edit"):
        write(p, turn_edit(read(p), names, p))
    print(len(names), "names")


main()
