#!/usr/bin/env python3
"""Spells the names of this repository's own definitions and lemmas in snake case: isLoad as is_load, before-post as before_post.

usage: tools/respell-names.py [--say] [ROOT]

Run once, after the kit's port.py, over a tree whose texts have the older spelling. It turns what specs/ and proofs/ declare; types, modules,
names of src/ and the labels that Rattle makes stay, and so do the stages' names (readsInID becomes reads_in_ID). Where two names would
meet, the definition has the plain one and the lemma ends in _lem. --say prints the table and writes nothing.
"""

import os
import re
import sys
from collections import defaultdict

NAME = r'[^\s(){}.;,@"«»:\[\]`]+'
WORD = re.compile(r'[^\s(){}.;,@"«»:\[\]`]+')
DECLARED = re.compile(
    r"\s*(?:(?:pub|abbrev|unfoldable|data|record|infixl|infixr|infix)\s+)*((?:" + NAME + r"\s+)*" + NAME + r")(?:\s*[({].*?[)}])*\s+:(?:\s|$)"
)
# A function's own folder, where most names are labels that Rattle makes.
OF_FUNCTION = re.compile(r"/proofs/.+/(Proof|Answers|Invariants)\.antt$")
GIVEN = {
    "getD-firsts": "get_or_firsts",
    "fileOfLAnd": "file_of_L_and",
    # Fields of a claim that speak of a definition of the same name.
    "settled-refusal": "settled_refusal_lem",
    "timed-refusal": "timed_refusal_lem",
}
KEYWORDS = {"pub", "abbrev", "unfoldable", "data", "record", "module", "let", "in", "_"}


def texts(root, *endings):
    for folder, dirs, files in os.walk(root):
        dirs[:] = sorted(d for d in dirs if d not in ("out", "target", ".git"))
        for f in sorted(files):
            path = os.path.join(folder, f)
            if f.endswith(endings) and not os.path.islink(path):
                yield path


def read(path):
    with open(path, encoding="utf-8") as f:
        return f.read()


def declared(root):
    """Each name that a file of specs/ or proofs/ declares, with those files."""
    places = defaultdict(set)
    for path in texts(os.path.join(root, "crates"), ".antt"):
        if OF_FUNCTION.search(path):
            continue
        lines = read(path).split("\n")
        for line, following in zip(lines, lines[1:] + [""]):
            if line.lstrip().startswith("--"):
                continue
            if following.lstrip().startswith(": "):
                line += " :"
            m = DECLARED.match(line.split(" -- ")[0])
            for name in m[1].split() if m else ():
                if name not in KEYWORDS:
                    places[name].add(path)
    return places


def in_snake_case(name):
    if name in GIVEN:
        return GIVEN[name]
    parts = re.split(r"(?<=[a-z0-9])(?=[A-Z])", name)
    words = [p if not i or re.match(r"(IF|ID|EX|MEM|ST|WB|[A-Z])(?![a-zA-Z])", p) else p[0].lower() + p[1:] for i, p in enumerate(parts)]
    return "_".join(words).replace("-", "_")


def is_old(name):
    return bool(re.match(r"[a-z]", name) and re.search(r"[a-z0-9][A-Z]", name)) or ("-" in name.strip("-") and re.match(r"[A-Za-z]", name) is not None)


def table(places):
    """Old name to new name."""
    wanted = defaultdict(list)
    for name in places:
        wanted[in_snake_case(name) if is_old(name) else name].append(name)

    def rank(name):
        in_specs = any("/specs/" in p for p in places[name])
        return (not in_specs, "-" in name, "_" in name, name)

    turned = {}
    for new, names in wanted.items():
        names.sort(key=rank)
        for i, name in enumerate(names):
            meets = i and (all("/specs/" not in p for p in places[name]))
            to = new + "_lem" if meets else new
            if to != name:
                turned[name] = to
    return turned


def comment_at(line, sign):
    """Where the line's comment begins: text in quotes is passed over."""
    quoted = False
    for i, c in enumerate(line):
        if c == '"' and (i == 0 or line[i - 1] != "\\"):
            quoted = not quoted
        elif not quoted and line.startswith(sign, i) and (i == 0 or line[i - 1] in " \t" or sign == "//"):
            return i
    return len(line)


def is_camel(name):
    return "-" not in name and re.search(r"[a-z0-9][A-Z]", name) is not None


def turn_code(text, turned, function, given):
    def one(m):
        word, at = m[0], m.start()
        bare = word.rstrip("'")
        new = turned.get(word) or (turned.get(bare) and turned[bare] + word[len(bare) :])
        if not new:
            return word
        if function and not is_camel(word):
            # A label of Rattle stands behind a dot, or is declared here.
            if text[at - 1 : at] == "." or word in given:
                return word
        return new

    return WORD.sub(one, text)


def turn_prose(text, turned):
    def span(m):
        return WORD.sub(lambda w: turned.get(w[0], w[0]), m[0])

    text = re.sub(r"`[^`\n]+`", span, text)
    return WORD.sub(lambda w: turned[w[0]] if w[0] in turned and is_camel(w[0]) else w[0], text)


def turn_file(path, text, turned):
    sign = "--" if path.endswith(".antt") else "//"
    function = bool(OF_FUNCTION.search(path))
    given = set()
    if function:
        for line in text.split("\n"):
            m = re.match(r"(\S+) : (tie|goal)\.", line)
            if m:
                given.add(m[1])
    lines = []
    for line in text.split("\n"):
        at = comment_at(line, sign)
        code = line[:at]
        if path.endswith(".rt"):
            # Text in quotes stays.
            code = "".join(p if i % 2 else turn_code(p, turned, function, given) for i, p in enumerate(re.split(r'("(?:\\.|[^"\\])*")', code)))
        else:
            code = turn_code(code, turned, function, given)
        lines.append(code + turn_prose(line[at:], turned))
    return "\n".join(lines)


def turn_page(text, turned):
    def span(m):
        return WORD.sub(lambda w: turned.get(w[0], w[0]), m[0])

    return re.sub(r"`[^`\n]+`", span, text)


def main(argv):
    say = "--say" in argv
    argv = [a for a in argv if a != "--say"]
    root = argv[0] if argv else os.path.join(os.path.dirname(os.path.realpath(__file__)), "..")
    places = declared(root)
    turned = table(places)
    # What code and pages call by a name in snake case is a function of src/, which keeps it.
    outside = {old: new for old, new in turned.items() if is_old(old)}
    if say:
        for old in sorted(turned):
            print(old, turned[old])
        for path in texts(os.path.join(root, "crates"), ".antt", ".rt"):
            words = set(WORD.findall(read(path)))
            met = defaultdict(set)
            for w in words:
                met[turned.get(w, w)].add(w)
            for new, olds in sorted(met.items()):
                if len(olds) > 1:
                    print("meet:", os.path.relpath(path, root), new, sorted(olds))
        return 0
    for path in texts(os.path.join(root, "crates"), ".antt", ".rt"):
        text = read(path)
        new = turn_file(path, text, outside if path.endswith(".rt") else turned)
        if new != text:
            with open(path, "w", encoding="utf-8") as f:
                f.write(new)
    for path in list(texts(os.path.join(root, "docs"), ".md")) + [os.path.join(root, "README.md")]:
        if not os.path.exists(path):
            continue
        text = read(path)
        new = turn_page(text, outside)
        if new != text:
            with open(path, "w", encoding="utf-8") as f:
                f.write(new)
    return 0


if __name__ == "__main__":
    raise SystemExit(main(sys.argv[1:]))
