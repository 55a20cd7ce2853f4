"""A text in other letters. The programs replay_job and replay_check respell each text by this rule too.

Respelled is each byte that is a letter of a hex digit, A to F in either case, and not the first byte of a
line: so A and Q at the front of lines stay. In small letters it becomes small; in mixed letters it becomes
small where its place in the text is odd.
"""

import re

COUNT = 3  # of spellings

# a letter with another byte before it in its line
LETTER = re.compile(rb"(?<=[^\n])[A-Fa-f]")


def small(text):
    return LETTER.sub(lambda found: found[0].lower(), text)


def mixed(text):
    return LETTER.sub(lambda found: found[0].lower() if found.start() % 2 else found[0], text)


def capital(text):
    return LETTER.sub(lambda found: found[0].upper(), text)


def spellings(text):
    """The text as given, in mixed letters and in small letters: the programs play it in this order."""
    return text, mixed(text), small(text)
