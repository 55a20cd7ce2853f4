"""Makes the test vectors of the job checker from its model.

    check_vectors.py [VECTORS [STDOUT]]   writes the vector file and what its replay has to print
    check_vectors.py --show               prints every job in words, a line each; writes nothing
    check_vectors.py --count              prints how often each thing is met; writes nothing

VECTORS and STDOUT default to the places where the crate `replay_check` has them. `jobs.py` says what the
file looks like. Fixed rules and fixed seeds make everything, so that two runs give the same bytes. Every
verdict was found in two ways (`checker.py`), and is that of the job's three spellings, or nothing is written.
"""

import collections
import os
import sys

sys.dont_write_bytecode = True

import checker
import loader
from check_parts import PARTS, SMALL
from jobs import ERASED, MARKED, NO_MORE_JOBS, Job, judged, printed, ramp_fill
from loader import DEFAULT_OPTIONS, FLASH, PAGE, RAM, TRANSFER_SIZE
from tape import CODE_NAMES, IN, OUT, RIGHT
from walks import Dice

# The parts about the trap "passing a job because it works on blank flash": their work area has to look blank.
BLANK_FLASH = ("unwritten", "blank_only")


class Shelf:
    """Jobs as they are made, each once."""

    def __init__(self):
        self.jobs, self.family, self.known, self.dice = [], "", set(), Dice(41)

    def add(self, events, image=SMALL, card=DEFAULT_OPTIONS, work=RIGHT):
        self.add_text([piece for event in events for piece in event], image, card, work)

    def add_text(self, pieces, image=SMALL, card=DEFAULT_OPTIONS, work=RIGHT):
        job = Job(self.family, image, bytes(card), work, self.fill(), pieces)
        same = (image, job.card, work, job.text())
        if same not in self.known:
            self.known.add(same)
            self.jobs.append(job)

    def fill(self):
        """By dice, as the parts have rhythms of their own: a third all 0xFF, a sixth all 1, half ramps."""
        throw = self.dice.roll(6)
        if throw < 2 or self.family in BLANK_FLASH:
            return ERASED
        return MARKED if throw == 2 else ramp_fill(len(self.jobs) * 7 % 256)


def everything():
    shelf = Shelf()
    for part in PARTS:
        shelf.family = part.__name__
        part(shelf)
    return shelf.jobs


def place_of(spot, image):
    if spot < image.length:
        return "first byte of the image" if spot == 0 else "image"
    return "rest of the last page" if spot // PAGE < image.pages() else "another page"


def failure_words(events, number, card):
    """Which request fails, in which mode and how, on a board whose flash is all zeros."""
    memory = bytearray(FLASH.size + RAM.size) + card
    block, reply = bytearray(TRANSFER_SIZE), bytearray(TRANSFER_SIZE)
    device = loader.attached()
    for event in events[:number]:
        before = device
        device, answer = loader.step(device, event, memory, block, reply)
    how = f"status {device.status}" if answer.kind == loader.REPLY else answer.kind
    name = CODE_NAMES[event[1]] if event[0] in (OUT, IN) and event[1] < len(CODE_NAMES) else "unknown"
    return f"{name} in {before.mode}: {how}"


def tally(counts, job, answer, events):
    counts["jobs of part"][job.family] += 1
    counts["work area"][job.fill.name] += 1
    counts["answer"][" ".join(checker.report(answer).split("\t")[: 1 if answer == checker.Verdict(4, 0) else 2])] += 1
    counts["image length"][job.image.length] += 1
    if isinstance(answer, checker.Refusal):
        counts["refusal"][answer.number] += 1
        counts["part and verdict"][f"{job.family}: refused {answer.number}"] += 1
        return
    kind = {checker.EVENT: "Event", checker.END: f"End {answer.number}", checker.BYTE: "Flash", checker.PASS: "Pass"}
    counts["verdict"][kind[answer.kind]] += 1
    protected = "read-protected" if job.card[0] != 0xAA else "open"
    locked = "no page locked" if job.card[8:10] == b"\xFF\xFF" else "pages locked"
    counts["card and verdict"][f"{protected}, {locked}: {kind[answer.kind]}"] += 1
    counts["work area and verdict"][f"{job.fill.name}: {kind[answer.kind]}"] += 1
    where = f", {place_of(answer.number, job.image)}" if answer.kind == checker.BYTE else ""
    counts["part and verdict"][f"{job.family}: {kind[answer.kind]}{where}"] += 1
    counts["events in the job, up to"][2 ** (len(events) - 1).bit_length() if events else 0] += 1
    if answer.kind == checker.EVENT:
        counts["event that fails"][failure_words(events, answer.number, job.card)] += 1
    if answer.kind == checker.BYTE:
        counts["flash byte"][place_of(answer.number, job.image)] += 1


def counted(answers):
    counts = collections.defaultdict(collections.Counter)
    for job, answer, events in answers:
        tally(counts, job, answer, events)
    yield f"{len(answers)} jobs"
    for title, counter in counts.items():
        yield f"\n{title}"
        yield from (f"  {count:6} {name}" for name, count in sorted(counter.items()))


def write_files(answers, places):
    crate = os.path.join(os.path.dirname(os.path.dirname(os.path.abspath(__file__))), "crates", "replay_check")
    defaults = [os.path.join(crate, "data", "vectors.bin"), os.path.join(crate, "stdout")]
    vector_file, expected = places + defaults[len(places):]
    with open(vector_file, "wb") as file:
        file.write(b"".join(job.record() for job, _, _ in answers) + NO_MORE_JOBS)
    with open(expected, "w", newline="\n") as file:
        file.writelines(line + "\n" for job, answer, _ in answers for line in printed(job, answer))
        file.write(f"jobs {len(answers)}\n")


def main(words):
    known = words in (["--show"], ["--count"])
    if not known and (len(words) > 2 or any(word.startswith("-") for word in words)):
        print("usage: check_vectors.py [VECTORS [STDOUT]] | --show | --count", file=sys.stderr)
        sys.exit(2)
    answers = [(job, *judged(job)) for job in everything()]
    if words == ["--show"]:
        print("\n".join(job.words(answer, events) for job, answer, events in answers))
    elif words == ["--count"]:
        print("\n".join(counted(answers)))
    else:
        write_files(answers, words)


if __name__ == "__main__":
    main(sys.argv[1:])
