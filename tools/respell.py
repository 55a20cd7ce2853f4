#!/usr/bin/env python3
"""Respells the project's own definitions and lemmas as today's Rattle does: words in snake case.

usage: tools/respell.py [--list]

It was run once, right after the kit's port.py, at the top of the project; docs/PORT.md says in which commit. Run again
it changes nothing. --list writes nothing and prints each name, old and new.

A definition `pageBytes` becomes `page_bytes`, a lemma `block-follows-block` becomes `block_follows_block`. A dash stays
where a lemma's name is made of names of definitions alone. Types, modules, and all that has to do with src/ keep their names, and so do
the goals of proofs/FUNCTION.
"""

import collections
import glob
import os
import re
import sys

# words of the kit's library that a lemma's name can join
LIBRARY = set("length take drop set get_or append replicate map sum reverse sets suc cond not".split())
HEAD = re.compile(
    r"^ *(?P<words>(?:(?:abbrev|unfoldable|pub|record|data) )*)(?P<name>[^\s(){}\[\],;.:=]+)(?: [^:\n=]*)? :(?= |$)", re.M
)
TOKEN = re.compile(r"(?<![\w'◌\-])[A-Za-z][\w'◌]*(?:-[\w'◌]+)*(?![\w'◌\-])")
BACKTICKS = re.compile(r"`[^`\n]+`")
# two names that would fall together, or a name that a function of src/ or the library has: the one here gets another
APART = {name: spelled for name, spelled in (line.split() for line in """
bit-at bit_at_lem
bit-or bit_or_lem
byte-of byte_of_lem
capital-lines capital_lines_lem
data-length data_length_lem
length-in length_in_lem
names-from names_from_lem
options-at options_at_lem
page-at page_at_lem
page-bytes page_bytes_lem
pages-end pages_end_lem
pieces-after pieces_after_lem
read-moves read_moves_lem
request-moves request_moves_lem
well-formed well_formed_lem
well-spelled well_spelled_lem
read-on read_on_lem
part-from part_from_lem
end-fails end_fails_lem
flash-erased flash_erased_lem
record-laid record_laid_lem
with-piece with_piece_lem
""".split("\n") if line)}
# a law that port.py left with the name that its definition gets
LAWS = {"all_known": "all_known_lem"}
# a law of `hex` and a definition of `board`, which no file has both
FAR = {"part_bytes"}
# the documents' names of the statuses stay as they are in comments, strings and pages
STATUSES = {"errTARGET", "errVENDOR", "errWRITE", "errSTALLEDPKT"}
STRING = re.compile(r'"(?:[^"\\]|\\.)*"', re.S)
COMMENT = re.compile(r"(?m)^ *(?://|--|#).*$")


def read(path):
    with open(path, encoding="utf-8") as f:
        return f.read()


def snake(word):
    return re.sub(r"(?<=[a-z0-9])([A-Z]+)|^([A-Z])(?=[a-z])", lambda m: "_" + m[1].lower() if m[1] else m[2], word)


def is_own(name):
    return not name[0].isupper() and not name.startswith("_") and "◌" not in name


def names_of(paths):
    found = collections.defaultdict(set)
    for path in paths:
        for m in HEAD.finditer(read(path)):
            if "record" not in m["words"] and "data" not in m["words"] and is_own(m["name"]):
                found[m["name"]].add(path)
    return found


def spelled(name, words):
    parts = [snake(p) for p in name.split("-")]
    return ("-" if all(p in words for p in parts) else "_").join(parts)


def table():
    specs = sorted(glob.glob("crates/*/specs/*.antt"))
    laws = sorted(glob.glob("crates/*/proofs/*.antt"))
    found = names_of(specs + laws)
    words = {snake(n) for n in names_of(specs) if "-" not in n} | LIBRARY
    names = {}
    for name in found:
        new = APART.get(name, spelled(name, words))
        if new != name:
            names[name] = new
    return found, names


def falls_together(found, names):
    taken = collections.defaultdict(set)
    for name in found:
        taken[names.get(name, LAWS.get(name, name))].add(name)
    used = set()
    for path in glob.glob("crates/*/*/**/*.antt", recursive=True):
        for line in re.findall(r"^use (?!Rattle\.(?!std\b)).*", read(path), re.M):
            used.update(TOKEN.findall(line))
    for name, new in sorted(names.items()):
        if len(taken[new]) > 1 and new not in FAR:
            yield f"{name} and {', '.join(sorted(taken[new] - {name}))} become {new}"
        elif new in used:
            yield f"{name} becomes {new}, which is in use"


def respell(text, names):
    return TOKEN.sub(lambda m: names.get(m[0], m[0]), text)


def respell_file(path, text, names):
    """Strings stay, and in comments the names of the statuses."""
    kept = []

    def keep(m):
        kept.append(m[0])
        return f"\0{len(kept) - 1}\0"

    if path.endswith(".rt"):
        text = STRING.sub(keep, text)
    plain = {name: new for name, new in names.items() if name not in STATUSES}
    text = respell(COMMENT.sub(lambda m: keep([respell(m[0], plain)]), text), names)
    while "\0" in text:
        text = re.sub("\0(\\d+)\0", lambda m: kept[int(m[1])], text)
    return text


def main():
    found, names = table()
    faults = list(falls_together(found, names))
    if "--list" in sys.argv:
        for name in sorted(names):
            print(f"{name}\t{names[name]}")
        print(*faults, sep="\n", file=sys.stderr)
        return
    if faults:
        sys.exit("\n".join(faults))
    turned = 0
    for top in ("crates/*/specs", "crates/*/proofs", "crates/*/src", "crates/*/must-fail"):
        for path in sorted(glob.glob(top + "/**/*.*", recursive=True)):
            if path.endswith((".antt", ".rt", ".edit")):
                old = read(path)
                new = old
                if path.endswith(".antt") and "allKnown" in names:
                    for name in LAWS:
                        new = re.sub(rf"(?<![\w.:'-]){name}(?![\w'-])", LAWS[name], new)
                new = respell_file(path, new, names)
                if new != old:
                    turned += 1
                    with open(path, "w", encoding="utf-8") as f:
                        f.write(new)
    # in pages only what stands in backticks, and by any earlier spelling
    now, _ = table()
    known = {name.replace("-", "_") : name for name in now}
    for path in sorted(glob.glob("*.md") + glob.glob("docs/**/*.md", recursive=True)):
        def page(m):
            def one(t):
                flat = snake(t[0]).replace("-", "_")
                if t[0] in STATUSES:
                    return t[0]
                return names.get(t[0]) or (t[0] if t[0] in now or flat == t[0] else known.get(flat, t[0]))
            return TOKEN.sub(one, m[0])
        old = read(path)
        new = BACKTICKS.sub(page, old)
        if new != old:
            turned += 1
            with open(path, "w", encoding="utf-8") as f:
                f.write(new)
    print(f"{len(names)} names, {turned} files")


main()
