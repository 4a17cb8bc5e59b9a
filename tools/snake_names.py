#!/usr/bin/env python3
"""Spells the repository's own definitions, lemmas, fields and constructors in snake case.

usage: python3 tools/snake_names.py [--list]

Run at the top of the repository, over what the toolchain's own script left. A name of specs/ or proofs/ that has a capital
inside or dashes gets underscores; types, modules and facts keep their capital. Names of goals and invariants, names that a
library has and functions of src/ stay. Names in docs/ are respelled where they stand between backquotes. With --list it only
says what it would do. Where two names would fall together, it stops and changes nothing.
"""

import os
import re
import sys

WORD = r"[^\s(){}\[\];:.,«»`\"/λ=→×|]+"
TOKEN = re.compile(WORD)
DEFINES = re.compile(r"^(\s*)((?:pub |abbrev |unfoldable |let |in )*)(" + WORD + r")((?: " + WORD + r")*) :(?= |$)")
# Names that would fall together with another, as with a field, a ghost field or a lemma of a definition's name.
CHOSEN = {
    "depthAllowed": "depth_is_allowed",
    "rowsAllowed": "rows_are_allowed",
    "symbolAllowed": "symbol_is_allowed",
    "subframeRowsAllowed": "subframe_rows_are_allowed",
    "missLimitAllowed": "miss_limit_is_allowed",
    "stepAllowed": "step_is_allowed",
    "interleaverAllowed": "interleaver_is_allowed",
    "modeFits": "mode_is_fit",
    "lockFits": "lock_is_fit",
    "nextFits": "next_is_fit",
    "windowFits": "window_is_fit",
    "mapping-fits": "mapping_is_fit",
    "mode-fits": "mode_still_fits",
    "syncRight": "sync_is_right",
    "parityRight": "parity_is_right",
    "fed-all": "fed_all_lem",
    "frames-of-block": "frames_of_block_lem",
    "frames-wait": "frames_wait_lem",
    "octet-at": "octet_at_lem",
    "octets-of": "octets_of_lem",
    "zero-at": "zero_at_lem",
    "line-octet": "line_octet_of_3",
    "stopsAt-first": "stops_at_in_first",
    "stopsAt-second": "stops_at_in_second",
    "offset-low": "offset_is_low",
    "Some-of": "SomeOf",
}
# New names that may stand beside a function of src/ or a field of another record of the same name.
BESIDE = {"subframe_rows", "miss_limit", "row_length"}


def files(*endings):
    for top in ("crates", "docs"):
        for folder, dirs, names in os.walk(top):
            dirs[:] = sorted(d for d in dirs if d != "out")
            for name in sorted(names):
                if name.endswith(endings):
                    yield os.path.join(folder, name)


def read(path):
    with open(path, encoding="utf-8") as f:
        return f.read()


def made_by_goals(path):
    return os.path.basename(path) in ("Answers.antt", "Invariants.antt", "Proof.antt")


def snake(name):
    name = name.replace("getD", "get_or").replace("-", "_")
    return re.sub(r"(?<=[a-z0-9])([A-Z])", lambda m: "_" + m.group(1).lower(), name)


def defined(path):
    """The names that a file of definitions or lemmas defines."""
    goals = made_by_goals(path)
    for line in read(path).split("\n"):
        if line.lstrip().startswith(("--", "use ", "module ", "let ")):
            continue
        m = DEFINES.match(line)
        if not m:
            continue
        kind, first, rest, tail = m.group(2), m.group(3), m.group(4), line[m.end():]
        if goals and re.match(r" goal\.", tail):
            continue
        for name in [first] + rest.split():
            yield name


def imported():
    """The names that files import from elsewhere than this repository."""
    own = {c for c in os.listdir("crates")}
    found = set()
    for path in files(".antt", ".rt"):
        for m in re.finditer(r"^(?:ghost )?use ([^;\n]+)", read(path), re.M):
            line = m.group(1)
            parts = line.split(".")
            if parts[0] == "Rattle" and len(parts) > 1 and parts[1] in own:
                continue
            found.update(TOKEN.findall(line))
    return found


def main():
    elsewhere = imported()
    renamed = {}
    for path in files(".antt"):
        for name in defined(path):
            if "-" not in name and not re.match(r"[a-z].*[A-Z]", name):
                continue
            if name[0].isupper() and "-" not in name:
                continue
            if name in elsewhere or "◌" in name or not re.search(r"[A-Za-z]", name):
                continue
            renamed[name] = CHOSEN.get(name, snake(name))
    used = set()
    for path in files(".antt", ".rt"):
        used.update(TOKEN.findall(read(path)))
    functions = set()
    for path in files(".rt"):
        functions.update(re.findall(r"\bfn (\w+)", read(path)))
    used -= functions | BESIDE
    clash = False
    backwards = {}
    for name, new in sorted(renamed.items()):
        if new in used or backwards.get(new, name) != name:
            print(f"falls together: {name} -> {new}")
            clash = True
        backwards[new] = name
    if "--list" in sys.argv:
        for name, new in sorted(renamed.items()):
            print(f"{name} -> {new}")
        return
    if clash:
        raise SystemExit(1)

    def change(m):
        # behind `c.` and `w.` of a goal stands a step of the code, which the toolchain names
        step = made_by_goals(path) and re.search(r"(?<![\w'])[cw]\.$", m.string[max(0, m.start() - 3):m.start()])
        return m.group(0) if step else renamed.get(m.group(0), m.group(0))

    for path in files(".antt", ".rt", ".edit", ".md"):
        text = read(path)
        if path.endswith(".md"):
            new = re.sub(r"`[^`\n]+`", lambda m: TOKEN.sub(change, m.group(0)), text)
        else:
            new = TOKEN.sub(change, text)
        if new != text:
            with open(path, "w", encoding="utf-8") as f:
                f.write(new)


main()
