"""Makes the table that the program `request_table` has to print, from the loader's model.

    request_table.py [CRATE]   writes stdout of the crate
    request_table.py --show    prints it; writes nothing

CRATE defaults to crates/request_table. A row a mode, a column a request, in document 01's order.
"""

import pathlib
import sys

sys.dont_write_bytecode = True

from loader import REQUESTS
from play_vectors import MODES, STRANGE


def row(cells):
    return "| %s |\n" % " | ".join(cells)


def title(mode):
    """Two modes have no number."""
    return "%s %s" % (mode, MODES[mode]) if isinstance(mode, int) else MODES[mode]


def table():
    """What is none of the requests is taken nowhere."""
    yield row(["mode"] + [r.name for r in REQUESTS] + [STRANGE])
    yield "|" + "---|" * (len(REQUESTS) + 2) + "\n"
    for mode in MODES:
        yield row([title(mode)] + ["yes" if mode in r.modes else "no" for r in REQUESTS] + ["no"])


def main(words):
    if words != ["--show"] and (len(words) > 1 or any(word.startswith("-") for word in words)):
        print("usage: request_table.py [CRATE] | --show", file=sys.stderr)
        sys.exit(2)
    text = "".join(table())
    if words == ["--show"]:
        print(text, end="")
        return
    crate = pathlib.Path(words[0] if words else "crates/request_table")
    (crate / "stdout").write_text(text)


if __name__ == "__main__":
    main(sys.argv[1:])
