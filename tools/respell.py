#!/usr/bin/env python3
"""Spells the repository's own definitions and lemmas as today's library does: readsText and reads-text become reads_text,
and a fact Reads-text becomes ReadsText.

usage: python3 tools/respell.py [FOLDER]      in the repository, or in a checkout of it at FOLDER

A type, a fact or a module is in camel case. What turns is each name that a text of specs/ or proofs/ declares, wherever
it stands in .antt, in clauses, and in code spans of .md. A label that the checker makes stays: what stands behind a dot
in a file of answers, and a name that is declared as a goal. A name that a library's import brings into a file stays there.
MEETING has the names that would fall together with another, each with the name that it gets in place of that.
"""

import collections
import os
import re
import sys

NAME = r'[^\s(){}.;,@"«»]+'
TOKEN = re.compile(rf'--[^\n]*|//[^\n]*|"(?:[^"\\\n]|\\.)*"|«[^»]*»|{NAME}|\s+|.', re.S)
DECLARED = re.compile(rf"^ *(?:(?:pub|abbrev|unfoldable|record|data|module) )*({NAME})(?: \([^)]*\)| \{{[^}}]*\}})* :(?: |$)")
GOAL = re.compile(rf"^ *(?:(?:pub|abbrev) )*({NAME}) : goal\.")
USE = re.compile(r"\b(?:ghost )?use ([^\s;{]+)\.\{([^}]*)\}", re.S)
GENERATED = re.compile(r"/proofs/.*/(Answers|Invariants|Choices|Proof)\.antt$")
SPAN = re.compile(r"(```.*?```|`[^`\n]+`)", re.S)

MEETING = {
    "move-line": "move_line_lem",
    "number-of-text": "number_of_its_text",
    "walk_at": "walk_at_lem",
    "all-from": "all_from_lem",
    "any-from": "any_from_lem",
    "bit-or": "bit_or_lem",
}


def in_camel_case(name):
    return "".join(word[0].upper() + word[1:] for word in re.split("[-_]", name))


def in_snake_case(name):
    words = re.sub(r"(?<=[a-z0-9])[A-Z]", lambda m: "_" + m[0].lower(), name)
    return words.replace("-", "_")


def files(root, *endings):
    for folder, dirs, names in os.walk(root):
        dirs[:] = sorted(d for d in dirs if d not in ("out", "target", ".git"))
        for name in sorted(names):
            if name.endswith(endings):
                yield os.path.join(folder, name)


def read(path):
    with open(path, encoding="utf-8") as f:
        return f.read()


def own_names(root):
    names = set()
    for path in files(os.path.join(root, "crates"), ".antt"):
        for line in read(path).splitlines():
            found = DECLARED.match(line)
            if found and not GOAL.match(line):
                names.add(found[1])
    return names


def spelled_anew(names):
    plain = {name: in_camel_case(name) if name[0].isupper() else in_snake_case(name) for name in names}
    taken = collections.Counter(plain.values())
    new = {}
    for name, to in plain.items():
        if name in MEETING and (to != name or taken[to] > 1):
            to = MEETING[name]
        if to != name:
            new[name] = to
    return new


def imported(text, crates):
    """The names that a text has from libraries, not from a crate of the repository."""
    from_libraries = set()
    for found in USE.finditer(text):
        steps = found[1].split(".")
        if not (steps[0] == "Rattle" and len(steps) > 1 and steps[1] in crates):
            from_libraries |= {item.split(" as ")[0].strip() for item in found[2].split(",")}
    return from_libraries


def turned(path, text, new, crates):
    staying = imported(text, crates) - {m[1] for m in map(DECLARED.match, text.splitlines()) if m}
    generated = bool(GENERATED.search(path))
    if generated:
        staying |= {m[1] for m in map(GOAL.match, text.splitlines()) if m}
    out, before, head = [], "", ""
    for token in TOKEN.findall(text):
        behind_dot = before.endswith(".")
        if not behind_dot and re.fullmatch(NAME, token):
            head = token
        turns = token in new and token not in staying
        if behind_dot and generated and head != "Rattle":
            turns = False
        if token.startswith(("--", "//")):
            token = re.sub(r"`([^`\n]+)`", lambda m: "`" + new.get(m[1], m[1]) + "`", token)
        out.append(new[token] if turns else token)
        before = token
    return "".join(out)


def turned_page(text, new):
    def span(found):
        return re.sub(r"[^\s(){}.;,@\"«»`]+", lambda m: new.get(m[0], m[0]), found[0])

    return SPAN.sub(span, text)


def main(argv):
    root = argv[0] if argv else "."
    crates = set(os.listdir(os.path.join(root, "crates")))
    new = spelled_anew(own_names(root))
    for path in [*files(os.path.join(root, "crates"), ".antt", ".rt")]:
        old = read(path)
        text = turned(path, old, new, crates)
        if text != old:
            with open(path, "w", encoding="utf-8") as f:
                f.write(text)
    pages = [*files(os.path.join(root, "docs"), ".md"), os.path.join(root, "README.md")]
    for path in pages:
        old = read(path)
        text = turned_page(old, new)
        if text != old:
            with open(path, "w", encoding="utf-8") as f:
                f.write(text)
    print(f"{len(new)} names spelled anew")


if __name__ == "__main__":
    main(sys.argv[1:])
