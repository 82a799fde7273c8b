#!/usr/bin/env python3
"""Spells the repository's own definitions and lemmas in snake case: fooBar and foo-bar become foo_bar.

usage: tools/respell.py FOLDER [--list] [--write]

Run once with --write, at the top of the repository, right after port.py. It goes over specs/, proofs/, src/, must-fail/, README.md and docs/. Names of
functions of src/, types, exported C names, strings, inputs and outputs stay. It prints where two names of a file would come to one: look at each of these
before --write, which writes all the same. --list prints each name and the new one.
"""
import os
import re
import sys

NAME = r"[^\s(){}.;,@\"«»:\[\]|`]+"
MARKS = {"pub", "abbrev", "unfoldable", "pattern", "data", "record", "axiom", "ruleset"}
# A declaration: marks, a name, levels or parameters, and a colon.
DECLARED = re.compile(rf"^( *)((?:(?:{'|'.join(MARKS)}) )*)({NAME})(?: [({{].*?[)}}])* :(?!:)", re.M)
# The parts of names of rules and lemmas that Rattle makes for a function keep their spelling: they stand in proofs/F/Proof.antt as answers of needs.
NEED = re.compile(rf"^({NAME}) : tie\.", re.M)


def snake(name):
    if not name or not re.search(r"[a-z]", name):
        return name.replace("-", "_") if "-" in name and re.fullmatch(r"[A-Z-]+", name) else name
    # The rules of whole tables keep their names, W1 to W5.
    new = re.sub(r"^(W[1-5])-?(?=[a-z])", r"\1_", name)
    if not name[0].isupper() or "-" in name or new != name:
        new = re.sub(r"(?<=[a-z0-9])([A-Z]+)", lambda m: "_" + m.group(1).lower(), new)
    return new.replace("-", "_")


def parts(name):
    return [it for it in name.split("◌") if it]


def files(top, *ends):
    for folder, folders, names in os.walk(top):
        folders[:] = sorted(it for it in folders if it not in (".git", "out", "target"))
        for name in sorted(names):
            if name.endswith(ends):
                yield os.path.join(folder, name)


def standing_names(texts):
    found = set()
    for path, text in texts.items():
        if path.endswith(".antt") and not path.endswith("/Proof.antt"):
            found |= {it.group(3) for it in DECLARED.finditer(re.sub(r"--.*", "", text))}
    return found


# Lemmas that port.py respelled already, each with the file where its new name is also a definition's.
LEMMAS = {"goes_on": "goes_on_lem", "is_open": "is_open_lem", "share_back": "share_back_lem"}
OF = {"goes_on": "desk/proofs/Walks.antt", "is_open": "events/proofs/JobEvents.antt", "share_back": "wrong/proofs/Tried.antt"}


# The definitions that port.py respelled in the crates: the pages and the edits say them too.
PORTED = """
aNumber allBelow andThen asMut asShr atMost codeOf copyAt dropLast fieldAt fieldsOf fromEmpty isWhole jobOf keptAt leftOf lineAt linesOf madeOf noSlot
numberAt numberIn ofBoth openIn readOf runBy runFrom runOf saidOf sameList slotOf stepOf untilEnd valueOf wholeAt withRow
""".split()


def main():
    top = sys.argv[1]
    os.chdir(top)
    texts = {}
    for path in list(files("crates", ".antt", ".rt", ".edit")) + ["README.md"] + list(files("docs", ".md")):
        with open(path, encoding="utf-8") as file:
            texts[path] = file.read()
    names = {}
    for path, text in texts.items():
        if not path.endswith(".antt"):
            continue
        needs = set(NEED.findall(text))
        code = re.sub(r"--.*", "", text)
        for match in DECLARED.finditer(code):
            name = match.group(3)
            if name in needs or not re.search(r"\w", name):
                continue
            for part in parts(name):
                new = snake(part)
                if new != part:
                    names.setdefault(part, set()).add(path)
    mapping = {it: snake(it) for it in names}
    # A lemma that would have the name of a definition ends in _lem.
    plain = {snake(it) for it in mapping if "-" not in it} | standing_names(texts)
    for old, new in mapping.items():
        if "-" in old and new in plain:
            mapping[old] = "lasts_of_slots" if old == "lasts-of" else new + "_lem"
    mapping.update(LEMMAS)
    token = re.compile(rf"(?<![\w\-'])(?:{'|'.join(sorted(map(re.escape, mapping), key=len, reverse=True))})(?![\w\-'])")

    def turned(path, text):
        walk = path.endswith("/Proof.antt")

        def one(match):
            old = match.group(0)
            before = match.string[: match.start()]
            line = before[before.rfind("\n") + 1 :]
            if old in LEMMAS and not path.startswith("crates/" + OF[old]):
                return old
            if walk and not line.startswith(("use ", "pub use ")) and ("-" in old or old in LEMMAS) and before.endswith("."):
                return old  # a label that Rattle makes, as c.f-x.ensures
            if old in LEMMAS and (before.endswith(".") or re.match(r"\.", match.string[match.end() :])) and not line.startswith("use "):
                return old
            if before.endswith("tie.Need-"):
                return old
            if old in PORTED and not path.endswith((".md", ".edit")):
                return old
            # In prose a dash may be a plain one: there only what stands in backquotes is a name.
            prose = path.endswith(".md") or (path.endswith(".antt") and "--" in line)
            if path.endswith(".rt") and line.startswith("ghost use ") and old.isupper():
                return mapping[old]
            if "-" in old and (path.endswith((".edit", ".rt")) or (prose and line.count("`") % 2 == 0)):
                return old
            return mapping[old]

        return token.sub(one, text)

    for path, text in texts.items():
        if path.endswith(".antt"):
            code = re.sub(r"--.*", "", text)
            code = re.sub(r"(?m)^((?:pub )?use )([^{\n]*)", lambda m: m.group(1) + " " * len(m.group(2)), code)
            by = {}
            for word in set(re.findall(r"(?<![\w\-'])[\w\-']+", code)):
                new = turned(path, word) if word not in LEMMAS or path.startswith("crates/" + OF[word]) else word
                by.setdefault(new, set()).add(word)
            for new, olds in sorted(by.items()):
                if len(olds) > 1:
                    print("together:", path, new, sorted(olds))
    mapping.update({it: snake(it) for it in PORTED if it not in mapping})
    token = re.compile(rf"(?<![\w\-'])(?:{'|'.join(sorted(map(re.escape, mapping), key=len, reverse=True))})(?![\w\-'])")
    if "--list" in sys.argv:
        for old, new in sorted(mapping.items()):
            print(old, new)
    if "--write" in sys.argv:
        changed = 0
        for path, text in texts.items():
            new = turned(path, text)
            if new != text:
                changed += 1
                with open(path, "w", encoding="utf-8") as file:
                    file.write(new)
        print("respelled:", len(mapping), "names in", changed, "files")


main()
