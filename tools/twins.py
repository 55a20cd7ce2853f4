#!/usr/bin/env python3
"""Functions with the same body but for names and literals: twins, a group a line, and how many groups there are.

    tools/twins.py [FOLDER]     the folder that holds crates/; the repository, if none is given

A body of less than 14 words and signs is passed over. What is alike in the text need not be alike in meaning: a group
is a place to look at.
"""

import collections
import glob
import os
import re
import sys

WORDS = set("fn let mut if else match while for in return true false as pub crate self Self impl where const".split())
LEAST = 14
BODY = re.compile(r"(\n\s*\{\n|\) (-> [^\n{]*)?\{\n)")
TOKEN = re.compile(r'b?"[^"]*"|\w+|[^\s\w]')


def body_behind(text, at):
    """Returns the text of the first block behind a function's head."""
    found = BODY.search(text, at - 1)
    if not found:
        return ""
    start = text.find("{", found.start())
    depth = 0
    for end in range(start, len(text)):
        depth += (text[end] == "{") - (text[end] == "}")
        if depth == 0:
            return text[start + 1 : end]
    return ""


def shape(body):
    """Returns a body with its names and literals numbered in the order in which they come, or nothing for a short one."""
    tokens = TOKEN.findall(body)
    if len(tokens) < LEAST:
        return None
    names = {}
    return " ".join(it if it in WORDS or not re.match(r'[\w"]', it) else names.setdefault(it, f"x{len(names)}") for it in tokens)


def main():
    top = sys.argv[1] if len(sys.argv) > 1 else os.path.dirname(os.path.dirname(os.path.abspath(__file__)))
    groups = collections.defaultdict(list)
    for path in sorted(glob.glob(f"{top}/crates/*/src/**/*.rt", recursive=True)):
        with open(path, encoding="utf-8") as file:
            text = re.sub(r"//.*", "", file.read())
        for head in re.finditer(r"\bfn (\w+)", text):
            known = shape(body_behind(text, head.end()))
            if known:
                groups[known].append(f"{os.path.relpath(path, top + '/crates')}::{head[1]}")
    twins = sorted(it for it in groups.values() if len(it) > 1)
    for group in twins:
        print(", ".join(group))
    print(len(twins), "groups")


main()
