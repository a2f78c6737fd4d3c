"""The lines of transcripts that an independent simulator prints, read and printed again, and changed lines judged.

Use: texts.py SIMULATOR JUDGE COUNT. The simulator's own schedules and COUNT random ones are run. Its reader says which
lines are lines of a schedule, and the judge's which are notes."""
import pathlib
import random
import re
import subprocess
import sys
import tempfile
from concurrent.futures import ThreadPoolExecutor

# their folders before this one, so that no file here stands in for one of theirs
sys.path[:0] = sys.argv[1:3]
import judge  # noqa: E402
from slicesim import sched  # noqa: E402

MOODS = ["calm", "lossy", "stops", "data", "names", "coord", "held", "whole", "power", "ghost"]
CHANGES_OF_EACH = 40
NUMBER = re.compile(rb"(?<= )[0-9]+(?= |$)")
NUMBERS = [0, 1, 2, 9, 15, 16, 55, 56, 255, 256, 10**6, 10**6 + 1, 10**9 - 1, 10**9, 2**32 - 1, 2**32, 2**64 - 1, 2**64]
LONGEST = 65536


def transcript(simulator, schedule):
    """The schedule's own lines, and those of its transcript."""
    run = subprocess.run([sys.executable, "sim.py", "replay"], cwd=simulator, input=schedule, capture_output=True)
    return schedule.splitlines() + run.stdout.splitlines()


def schedules(simulator, count):
    rows = [path.read_bytes() for path in sorted((simulator / "rows").glob("*.sched"))]
    with tempfile.TemporaryDirectory() as folder:
        for mood in MOODS:
            many = ["--many", "0", str(count // len(MOODS)), "--mood", mood, "--out", folder, "--steps", "120"]
            subprocess.run([sys.executable, "fuzz.py", *many], cwd=simulator, capture_output=True)
        return rows + [path.read_bytes() for path in sorted(pathlib.Path(folder).glob("*.sched"))]


def is_line(text, setup):
    try:
        sched.read_line(text, setup)
        return True
    except sched.Bad:
        return False


def is_note(text):
    """Whether the judge reads a note, whose numbers have 64 bits and whose actor has 8: it leaves these two ranges to
    its later steps."""
    try:
        note = judge.read_line(text)
    except judge.BadLine:
        return False
    numbers = [part for part in note[1:] if isinstance(part, int)]
    return note[0].startswith("=") and all(n < 2**64 for n in numbers) and (note[0] != "=down" or numbers[0] < 256)


class Changes:
    """Lines that are changed at random."""

    def __init__(self, seed):
        self.random = random.Random(seed)

    def instead(self, text, make):
        """Another number, or what else is made of one, instead of one of the line's numbers."""
        places = list(NUMBER.finditer(text))
        if not places:
            return text + b" 1"
        place = self.random.choice(places)
        return text[: place.start()] + make(place.group()) + text[place.end() :]

    def another_number(self, text):
        return self.instead(text, lambda _: str(self.random.choice(NUMBERS)).encode())

    def leading_zero(self, text):
        return self.instead(text, lambda number: b"0" + number)

    def sign(self, text):
        return self.instead(text, lambda number: self.random.choice([b"+", b"-"]) + number)

    def upper_case(self, text):
        front, space, last = text.rpartition(b" ")
        return front + space + last.upper()

    def stray_space(self, text):
        at = self.random.choice([0, len(text), *(m.start() for m in re.finditer(b" ", text))])
        return text[:at] + self.random.choice([b" ", b"\t"]) + text[at:]

    def part_lost(self, text):
        parts = text.split(b" ")
        del parts[self.random.randrange(len(parts))]
        return b" ".join(parts)

    def part_twice(self, text):
        parts = text.split(b" ")
        parts.insert(self.random.randrange(len(parts) + 1), self.random.choice(parts))
        return b" ".join(parts)

    def another_sign(self, text):
        at = self.random.randrange(len(text))
        return text[:at] + bytes([self.random.choice(b"0123456789abcdefABCDEFgx-=+ ")]) + text[at + 1 :]

    def cut(self, text):
        return text[: self.random.randrange(len(text))]

    def other_bytes(self, text):
        front, space, _ = text.rpartition(b" ")
        return front + space + self.random.choice([b"-", b"--", b"0", b"00", b"0g", b""])

    def of(self, text):
        changes = [
            self.another_number, self.another_number, self.leading_zero, self.sign, self.upper_case, self.stray_space,
            self.part_lost, self.part_twice, self.another_sign, self.cut, self.other_bytes,
        ]
        return self.random.choice(changes)(text)


def whole(lines):
    """What to ask of each line of a transcript, and the answer, which is the line itself."""
    for line in lines:
        kind = b"first" if line.startswith(b"volume ") else b"note" if line.startswith(b"= ") else b"later"
        yield kind + b" " + line, line


def changed(lines, changes):
    """What to ask of changed lines, and the answers by the independent readers."""
    first = lines[0]
    setup = sched.read_line(first, None)[1]
    others = [line for line in lines if not line.startswith(b"volume ")] or [b"tick"]
    digits = b"a5" * LONGEST
    asked = [b"call 0 " + digits, b"call 0 " + digits + b"00"] if changes.random.random() < 0.05 else []
    for _ in range(CHANGES_OF_EACH):
        asked.append(changes.of(changes.random.choice(others)))
    for text in asked:
        yield b"later " + text, text if is_line(text, setup) else b"bad"
        yield b"note " + text, text if is_note(text) else b"bad"
    for _ in range(CHANGES_OF_EACH // 8):
        text = changes.of(first)
        yield b"first " + text, text if is_line(text, None) else b"bad"


def main():
    simulator, count = pathlib.Path(sys.argv[1]).resolve(), int(sys.argv[3])
    changes = Changes(20261130)
    with ThreadPoolExecutor(2) as pool:
        transcripts = list(pool.map(lambda schedule: transcript(simulator, schedule), schedules(simulator, count)))
    printed = [row for lines in transcripts for row in whole(lines)]
    made = [row for lines in transcripts for row in [*whole(lines[:1]), *changed(lines, changes)]]
    asked = printed + made
    requests = b"".join(request + b"\n" for request, _ in asked)
    answers = subprocess.run(["bin/reread"], input=requests, capture_output=True).stdout.split(b"\n")
    wrong = [(r, s, a) for (r, s), a in zip(asked, answers + [b""] * len(asked)) if a != s]
    print("\n".join(f"{r[:200]}: {a[:200]}, should be {s[:200]}" for r, s, a in wrong[:5]))
    bad = sum(answer == b"bad" for _, answer in made)
    print(f"{len(transcripts)} schedules: {len(printed)} lines, and {len(made)} changed ones, {bad} of them bad")
    print(f"{len(asked) - len(wrong)} passed, {len(wrong)} failed")
    return 1 if wrong or not transcripts else 0


sys.exit(main())
