#!/usr/bin/env python3
"""Brings the repository's own definitions and lemmas to the spelling of today's Rattle, once, right after port.py.

A word in camel case becomes snake case (lettersIn: letters_in), in a name of several parts each part; a lemma that would then have
its function's name gets _lem. Types, modules, variants and facts keep their capitals, strings and functions of src/ their names.
Run at the top of the repository, after port.py and before any edit by hand. Must-fail edits and planted faults are not touched.
"""
import glob
import re

NAME = re.compile(r"(?<![A-Za-z0-9_'.])[A-Za-z_σθ][A-Za-z0-9_'₀-₉]*(?:-[A-Za-z0-9_'₀-₉]+)*")
PART = re.compile(r"(?<![A-Za-z0-9_'])[a-z][A-Za-z0-9_'₀-₉]*")
CAMEL = re.compile(r"^[a-z][a-z0-9]*(?:_[a-z0-9]+)*[A-Z]")
# names of today's library, and names made from source names
KEEP = {"mut_Tells", "walk_Meets"}
# names that end in the type that their crate's proofs speak of
LEMMAS = {"ends_read", "row_now", "same_word", "letter_at", "last_letter", "end_row", "link_row", "marked_row", "all_codes",
          "all_digits", "read_back", "two_bytes"}
PLAIN = {"getD-writes": "get_or-writes"}


def snake(part):
    if part in KEEP or not CAMEL.match(part):
        return part
    return re.sub(r"_?([A-Z])", lambda m: "_" + m.group(1).lower(), part)


def files():
    found = glob.glob("crates/*/specs/**/*.antt", recursive=True) + glob.glob("crates/*/proofs/**/*.antt", recursive=True)
    return sorted(found + glob.glob("crates/*/src/**/*.rt", recursive=True))


def ghost_spans(text):
    """Where a .rt file speaks antt: `ghost use` lines and the braces of clauses."""
    spans = [m.span() for m in re.finditer(r"^\s*ghost use [^;]*;", text, re.M)]
    for m in re.finditer(r"^\s+(?:requires|ensures|ghost)\*?(?: [a-z0-9_]+)? \{", text, re.M):
        depth, i = 1, m.end()
        while depth:
            depth += {"{": 1, "}": -1}.get(text[i], 0)
            i += 1
        spans.append((m.end(), i - 1))
    spans += [m.span() for m in re.finditer(r"^\s*ghost(?: invariant)? [a-z_]+: \{.*?\}[,;]", text, re.M | re.S)]
    return sorted(spans)


def lemmas(code):
    """Lemmas that would have a definition's name; a projection and a part of a path are none."""
    def turn(m):
        return m.group(0) + "_lem" if m.group(0) in LEMMAS else PLAIN.get(m.group(0), m.group(0))
    return NAME.sub(turn, code)


def words(code):
    return PART.sub(lambda m: snake(m.group(0)), code)


def comment(line):
    """A line of antt, in code and comment."""
    m = re.search(r"(?:^|\s)--(?:\s|$)", line)
    return (line, "") if not m else (line[:m.start()], line[m.start():])


def turn(path):
    with open(path, encoding="utf-8") as f:
        text = f.read()
    if path.endswith(".antt"):
        lines = []
        for line in text.replace("′", "'").split("\n"):
            code, said = comment(line)
            said = re.sub(r"`[^`]*`", lambda m: words(m.group(0)), said)
            lines.append(words(lemmas(code)) + said)
        new = "\n".join(lines)
    else:
        at, parts = 0, []
        for a, b in ghost_spans(text):
            parts += [text[at:a], words(text[a:b])]
            at = b
        new = "".join(parts) + text[at:]
    if new != text:
        with open(path, "w", encoding="utf-8") as f:
            f.write(new)
        return 1
    return 0


if __name__ == "__main__":
    print("respell: %d files" % sum(turn(path) for path in files()))
