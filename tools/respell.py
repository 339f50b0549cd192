#!/usr/bin/env python3
"""Brings this repository's own definitions and lemmas to the spelling of today's Rattle, once, after port.py and before any edit by hand.

    python3 tools/respell.py        at the top of the repository

- A name in lower camel case becomes snake case: insideOf, inside_of. Rust names are in snake case already, so such a token in a .rt
  file, in an edit or in a page is always a definition.
- A name of specs/ or of proofs/*.antt that was joined by dashes becomes snake case: rows-kept, rows_kept. Names that the prover makes
  (returns-2, distance-requires) and names of the library (length-set) keep their dashes.
- Two names that would fall together get another one each, written out in APART.
Functions, types, strings, inputs and outputs keep their names.
"""
import collections
import glob
import re
import sys

# These would fall together with a function of src/ or with another definition of the same place.
APART = {
    'connectEnds': 'connect_ends_of',
    'fieldsIn': 'fields_in_of',
    'keepOutAt': 'keep_out_at_of',
    'signLength': 'sign_length_of',
    'steerBy': 'steer_by_of',
    'leafVerbOf': 'leaf_verb_named',
    'verbOf': 'verb_named',
    'read-on': 'read_on_digit',
    'of-bits': 'of_bits_number',
    'start-tree': 'start_tree_is',
    'goal-tree': 'goal_tree_is',
    'goal-at': 'goal_at_is',
    'leg-at': 'leg_at_is',
    'longer-setting': 'longer_setting_is',
    'no-route': 'no_route_is',
    'state-at': 'state_at_is',
}
# In this crate alone, since other crates have a definition of the same name with nothing beside it.
APART_IN = {'crates/grammar/': {'plannerOf': 'planner_named'}}

CAMEL = re.compile(r"^[a-z][a-z0-9]*([A-Z][A-Za-z0-9]*)+$")
TOKEN = re.compile(r"[^\s(){}\[\],;.λ:`\"|]+")
DEFINED = re.compile(r"\s*(?:abbrev pub|unfoldable pub|pub|abbrev|unfoldable)?\s*([^\s(){}:]+)\s+:(\s|$)")
IMPORTED = re.compile(r"\s*use\s+([\w.·+-]+)\.\{(.*)\}")


def snake(name):
    return re.sub(r"(?<=[a-z0-9])(?=[A-Z])", "_", name).lower()


def without_comments(text):
    return re.sub(r"--.*", "", text)


def comment_at(path, line):
    """Where the comment of a line begins."""
    if path.endswith(".edit"):
        return len(line) if re.match(r"(file|old|new):", line) else 0
    at = line.find("--" if path.endswith(".antt") else "//")
    return at if at >= 0 else len(line)


def read(path):
    with open(path, encoding="utf-8") as file:
        return file.read()


def main():
    antt = sorted(glob.glob("crates/*/specs/**/*.antt", recursive=True) + glob.glob("crates/*/proofs/**/*.antt", recursive=True))
    crates = {path.split("/")[1] for path in antt}
    camel, dashed, every, foreign = set(), set(), set(), collections.defaultdict(set)
    for path in antt:
        code = without_comments(read(path))
        law = re.match(r"crates/\w+/(specs/.*|proofs/[^/]+)\.antt$", path)
        for token in TOKEN.findall(code):
            every.add(token)
            if CAMEL.match(token):
                camel.add(token)
        for line in code.split("\n"):
            imported = IMPORTED.match(line)
            if imported:
                parts = imported.group(1).split(".")
                if not (parts[0] == "Rattle" and parts[1] in crates):
                    foreign[path].update(name.strip().split(" ")[0] for name in imported.group(2).split(","))
            defined = DEFINED.match(line)
            if law and defined and "-" in defined.group(1) and re.match(r"^[A-Za-z][A-Za-z0-9'-]*$", defined.group(1)):
                dashed.add(defined.group(1))
    pages = glob.glob("docs/*.md") + ["README.md", "docs/check-promises"]
    names = {name: APART.get(name) or snake(name) for name in camel}
    names.update({name: APART.get(name) or name.replace("-", "_") for name in dashed})
    wrong = []
    together = collections.Counter(names.values())
    for name, new in sorted(names.items()):
        if together[new] > 1 or ((name in dashed or name in APART) and new in every):
            wrong.append(f"{name} would fall together with another {new}")

    if wrong:
        sys.exit("\n".join(wrong + ["name them in APART"]))

    def spelled(path, text):
        here = next((special for start, special in APART_IN.items() if path.startswith(start)), {})
        page = path in pages

        def one(match):
            token = match.group(0)
            if token in foreign[path]:
                return token
            # port.py has respelled some of the definitions, and no page
            if page and CAMEL.match(token) and token not in names and snake(token) in every:
                return snake(token)
            return here.get(token) or names.get(token, token)

        def camel_alone(match):
            return one(match) if CAMEL.match(match.group(0)) else match.group(0)

        lines = []
        for line in text.split("\n"):
            # In prose a word with a dash is English, unless it stands between backquotes.
            start = 0 if page else comment_at(path, line)
            prose = "`".join(
                TOKEN.sub(one if i % 2 else camel_alone, part) for i, part in enumerate(line[start:].split("`")))
            lines.append(TOKEN.sub(one, line[:start]) + prose)
        return "\n".join(lines)

    for path in antt + sorted(glob.glob("crates/*/src/*.rt") + glob.glob("crates/*/must-fail/*.edit")) + pages:
        old = read(path)
        new = spelled(path, old)
        if new != old:
            with open(path, "w", encoding="utf-8") as file:
                file.write(new)
    print(f"respell: {len(camel)} names in lower camel case, {len(dashed)} joined by dashes")


if __name__ == "__main__":
    main()
