#!/usr/bin/env python3
"""Respells the repository's own definitions and lemmas: snake case for words, camel case for facts.

usage: python3 tools/respell.py    at the top, once, right after the kit's port.py

A name in camel case that begins small (rowsAt) becomes snake case (rows_at); where it names a fact, it gets a
capital (heldParts, HeldParts). A dash becomes an underscore. What a generated module names (tie.Need-..) stays,
as do names of the kit and of the code. Names change in proofs, definitions, clauses, edits and pages alike.
"""

import os
import re
import sys

WORD = r"[^\s(){}\[\].,;:∷«»λ`'\"/]"
IDENT = re.compile(r"[A-Za-z](?:[A-Za-z0-9_']|-(?=[A-Za-z0-9]))*[₀-₉′]*")
DECLARED = re.compile(r"^\s*(?:(?:abbrev|unfoldable|pub|data|record|ruleset)\s+)*((?:[A-Za-z][^\s:(){},;]*\s+)+):\s+(.*)$")
HEAD = re.compile(r"^\s*(?:(?:abbrev|unfoldable|pub)\s+)*(?:data|record)\s+([A-Za-z][^\s:(){}]*)")
TYPES = re.compile(r"Type \d\s*$")
# lemmas whose new names would fall together with a definition's
LEMMAS = "answer-read by-letter fit-numbers height-then in_order last_line magnitude-of must-run new-part no-task old-part parts-in record-at row-for rows-numbers run_end to-come over-after shown-rows tasks-of update-over rows-of kept-after row-line values-of".split()
# definitions that get the name of the function that computes them, which only the code has so far
OF_CODE = "accepted_load added_parts arguments_of comes_before command_at command_of command_with covered_piece ends_profile event_of first_fit live_update no_record part_at record_of refused_load refused_update removed_parts stale_update swept_plan tasks_of".split()


def walk(*tops):
    for top in tops:
        if os.path.isfile(top):
            yield top
        for folder, dirs, files in os.walk(top):
            dirs[:] = sorted(d for d in dirs if d not in ("out", "target", ".git"))
            yield from (os.path.join(folder, f) for f in sorted(files))


def declared():
    """Each declared name with whether it is a fact, and whether it is a definition of specs/; what stays; what is the kit's."""
    found, kept, of_kit = {}, set(), set()
    for path in walk("crates"):
        if not path.endswith(".antt"):
            continue
        for line in open(path, encoding="utf-8"):
            m = re.match(r"(?:pub )?use (\S+?)\.\{(.*)\}", line)
            if m and not re.match(r"Rattle\.(?!std)", m[1]):
                of_kit |= {it.split(" as ")[0].strip() for it in m[2].split(",")}
            m = HEAD.match(line)
            if m:
                found.setdefault(m[1], [True, False])
            m = DECLARED.match(line)
            if not m or line.lstrip().startswith(("--", "use ", "let ")):
                continue
            for name in m[1].split():
                if name in ("abbrev", "unfoldable", "pub", "data", "record"):
                    continue
                if m[2].startswith(("tie.", "goal.", "At tie.")):
                    kept.add(name)
                it = found.setdefault(name, [False, False])
                it[0] |= bool(TYPES.search(line)) and "→" in line
                it[1] |= "/specs/" in path and line.startswith(("abbrev", "unfoldable"))
    return found, kept, of_kit


def snake(name):
    return re.sub(r"(?<=[a-z0-9])([A-Z])", lambda m: "_" + m[1].lower(), name)


def table():
    found, kept, of_kit = declared()
    new = {}
    for name, (fact, spec) in found.items():
        if name in kept or name in of_kit:
            continue
        to = "_".join(snake(p) if p[:1].islower() else p for p in name.split("-"))
        if fact and spec and to[:1].islower():
            to = "".join(p.capitalize() for p in to.split("_"))
        if name in LEMMAS:
            to = name.replace("-", "_") + "_lem"
        if to != name:
            new[name] = to
    return new, found


def main():
    new, found = table()
    used = set()
    for path in walk("crates"):
        if path.endswith((".antt", ".rt")):
            used |= set(IDENT.findall(open(path, encoding="utf-8").read()))
    back = {}
    for name, to in new.items():
        back.setdefault(to, []).append(name)
    bad = [f"{to}: {', '.join(names)}" for to, names in sorted(back.items()) if len(names) > 1]
    bad += [f"{to}: {names[0]}, and it stands already" for to, names in sorted(back.items()) if to in used and to not in OF_CODE and to not in new]
    if "--list" in sys.argv:
        for name, to in sorted(new.items()):
            print(name, to)
    if bad:
        print("these fall together:\n" + "\n".join(bad), file=sys.stderr)
        return 1
    if "--list" in sys.argv:
        return 0
    for path in walk("crates", "docs", "README.md", "library", "bench", "oracle"):
        if path.endswith((".antt", ".rt", ".edit", ".md")):
            with open(path, encoding="utf-8") as f:
                lines = f.read().split("\n")
            respelt = [spelled(line, path, new) for line in lines]
            if respelt != lines:
                with open(path, "w", encoding="utf-8") as f:
                    f.write("\n".join(respelt))
    return 0


def spelled(line, path, new):
    """A line with the new names: in prose, only what stands in backquotes."""
    mark = {".antt": "--", ".rt": "//", ".edit": "#", ".md": ""}[os.path.splitext(path)[1]]
    at = line.find(mark)
    if path.endswith(".edit"):
        at = 0 if line.startswith("#") else -1
    code, prose = (line, "") if at < 0 else (line[:at], line[at:])

    def turned(text):
        return IDENT.sub(lambda m: new.get(m[0], m[0]), text)

    # paths that port.py does not read
    code = re.sub(r"Rattle·(\w+)(?:·\w+)?\.", r"Rattle.\1.", re.sub(r"Rattle·(\w+)·(proofs|specs)\.", r"Rattle.\1.\2.", code))
    return turned(code) + re.sub(r"`[^`]*`", lambda m: turned(m[0]), prose)


if __name__ == "__main__":
    raise SystemExit(main())
