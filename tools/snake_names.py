#!/usr/bin/env python3
"""Spells the definitions and lemmas of specs/ and proofs/ in snake case, as the words of the library are.

usage: tools/snake_names.py [--list]        at the top of the repository; --list only prints the old and the new names

A name that begins with a small letter and has a capital or a dash in it is renamed wherever it stands: in specs/, proofs/, the ghost parts of
src/, the must-fail edits, and between backticks in README.md and docs/. Names that the prover makes for goals and steps stay, and so do strings.
Types, which begin with a capital, stay too.
"""
import glob
import re
import sys

# Lemmas that would get the name of the definition that they are about.
LEMMAS = {
    "passed-up": "passed_up_lem",
    "place-from": "place_from_lem",
    "word-turn": "word_turn_lem",
    "from-brace": "from_brace_lem",
    "plain-turn": "plain_turn_lem",
}
NAME = r"[A-Za-z][\w'\-]*"
SIGNATURE = re.compile(r"^\s*(?:(?:abbrev|unfoldable|pub) )*(" + NAME + r")(?: (?:\(|\{).*)?\s*:(?!:)")
LET = re.compile(r"\blet (" + NAME + r")\b")
GOAL = re.compile(r":\s*(?:goal|rule|need)\.")
IMPORT = re.compile(r"^\s*(?:ghost |pub )*use (?:Rattle\.std|borrow|Prim|lib|mathlib|native|denote)\b.*?\{([^}]*)\}")
TOKEN = re.compile(r"(?<![\w'\-◌])" + NAME)
CODE_TOKEN = re.compile(r"\"(?:\\.|[^\"\\])*\"|//[^\n]*|(?<![\w'\-◌])" + NAME)


# A lemma that has the name of a word of the library, which its file imported under another name for that reason.
APART = [("digit_value", "digit_value_lem", "digit_value as digitValue", "digitValue")]


def read(path):
    with open(path, encoding="utf-8") as f:
        text = f.read()
    for own, lemma, row, word in APART:
        if row in text:
            text = re.sub(r"(?<![\w'\-])" + own + r"(?![\w'\-]| as )", lemma, text).replace(row, own)
            text = re.sub(r"(?<![\w'\-])" + word + r"(?![\w'\-])", own, text)
    return text


def snake(name):
    if name in LEMMAS:
        return LEMMAS[name]
    return re.sub(r"(?<=[a-z0-9])([A-Z])", lambda m: "_" + m.group(1), name.replace("-", "_")).lower()


def old_spelling(name):
    return name[0].islower() and re.search(r"[A-Z\-]", name)


def aliases(text):
    for row in re.findall(r"\{([^}]*)\}", text):
        for new in re.findall(r"\bas (" + NAME + r")", row):
            yield new


def collect(antt, rt):
    names, made = set(), set()
    for path in antt:
        for line in read(path).splitlines():
            found = SIGNATURE.match(line)
            if found and GOAL.search(line):
                made.add(found.group(1))
            elif found:
                names.add(found.group(1))
            names.update(LET.findall(line))
            if line.lstrip().startswith(("use ", "pub use ")):
                names.update(aliases(line))
    for path in rt:
        for line in read(path).splitlines():
            if line.lstrip().startswith("ghost use "):
                names.update(aliases(line))
    return {n: snake(n) for n in names - made if old_spelling(n)}


def imported(text):
    """The names that a file has from libraries, which keep their spelling."""
    found = set()
    for line in text.splitlines():
        row = IMPORT.match(line)
        if row:
            for part in row.group(1).split(","):
                found.add(part.split(" as ")[0].strip())
    return found


def turned(text, names, code):
    kept = imported(text)
    fits = {n: s for n, s in names.items() if n not in kept}

    def one(match):
        word = match.group(0)
        if word.startswith('"'):
            return word
        if word.startswith("//"):
            return re.sub(r"(?<=`)" + NAME + r"(?=`)", lambda m: fits.get(m.group(0), m.group(0)), word)
        return fits.get(word, word)

    if code:
        return CODE_TOKEN.sub(one, text)
    lines = []
    for line in text.splitlines(keepends=True):
        body, dashes, comment = line.partition("--") if line.lstrip().startswith("--") else (line, "", "")
        body = "".join(p if p.startswith('"') else TOKEN.sub(one, p) for p in re.split(r'("(?:\\.|[^"\\])*")', body))
        comment = re.sub(r"(?<=`)" + NAME + r"(?=`)", lambda m: fits.get(m.group(0), m.group(0)), comment)
        lines.append(body + dashes + comment)
    return "".join(lines)


def page(text, names):
    def one(match):
        word = match.group(0)
        camel = word[0].islower() and "-" not in word and re.search(r"[A-Z]", word)
        return snake(word) if camel else names.get(word, word)

    return re.sub(r"(?<=`)" + NAME + r"(?=`)", one, text)


def main():
    antt = sorted(glob.glob("crates/*/specs/**/*.antt", recursive=True) + glob.glob("crates/*/proofs/**/*.antt", recursive=True))
    rt = sorted(glob.glob("crates/*/src/**/*.rt", recursive=True))
    edits = sorted(glob.glob("crates/*/must-fail/**/*", recursive=True))
    names = collect(antt, rt)
    taken = {}
    for old, new in sorted(names.items()):
        if new in taken:
            print(f"together: {taken[new]} and {old} as {new}", file=sys.stderr)
        taken[new] = old
    if "--list" in sys.argv[1:]:
        for old, new in sorted(names.items()):
            print(f"{old} -> {new}")
        return
    for path in antt + rt + edits:
        text = read(path)
        kept = imported(text)
        words = set(TOKEN.findall(text))
        for old in sorted(words & names.keys() - kept):
            if names[old] in words:
                print(f"look: {path} has {names[old]} beside {old}")
        new = turned(text, names, path.endswith(".rt") or path.endswith(".edit"))
        with open(path, encoding="utf-8") as f:
            was = f.read()
        if new != was:
            with open(path, "w", encoding="utf-8") as f:
                f.write(new)
    for path in ["README.md"] + sorted(glob.glob("docs/*.md")):
        text = read(path)
        new = page(text, names)
        if new != text:
            with open(path, "w", encoding="utf-8") as f:
                f.write(new)


main()
