"""Transcripts of an ensemble, whole and changed, judged by the referee and by an independent judge.

Use: claims.py JUDGE SIMULATOR COUNT REFEREE. The simulator performs its own schedules and COUNT random ones, of every mood. Each
transcript and changed copies of it are judged, claim by claim: where the judge finds no fault, the referee must say `yes` to
every claim, and where it finds faults of one claim, `no` to that claim. A changed copy that is no transcript any more is
passed over."""
import os
import random
import re
import struct
import subprocess
import sys
from collections import Counter
from concurrent.futures import ProcessPoolExecutor

MOODS = ["calm", "lossy", "stops", "data", "names", "coord", "held", "whole", "power", "ghost"]
CLAIMS = ["legal", "licensed", "wired", "fenced", "remembering", "completed"]
# so many changes are tried on each transcript
TRIED = 14
# so many bytes of a frame are its header
HEADER = 52


def field(number, change):
    """Changes one word of a line."""
    def changed(lines, at, source):
        words = lines[at].split(" ")
        words[number] = change(words[number], source)
        lines[at] = " ".join(words)
    return changed


def flipped(digits, source):
    """Bytes with one bit changed, behind the xid."""
    data = bytearray.fromhex(digits)
    data[source.randrange(min(4, len(data) - 1), len(data))] ^= 1 << source.randrange(8)
    return data.hex()


def header_changed(digits, source):
    """A frame with one byte of its tag, operation or arrival changed."""
    data = bytearray.fromhex(digits)
    data[source.choice([19, 35, 51])] ^= 1 << source.randrange(3)
    return data.hex()


def twice(lines, at, source):
    lines.insert(at, lines[at])


def body_changed(digits, source):
    """A frame with one bit of its body changed."""
    data = bytearray.fromhex(digits)
    if len(data) > HEADER:
        data[source.randrange(HEADER, len(data))] ^= 1 << source.randrange(8)
    return data.hex()


def gone(lines, at, source):
    del lines[at]


def later(lines, at, source):
    """The note stands in a later event."""
    note = lines.pop(at)
    events = [i for i in range(at, len(lines)) if not lines[i].startswith(("=", "at "))]
    place = source.choice(events[:8]) + 1 if events else len(lines)
    while place < len(lines) and lines[place].startswith("="):
        place += 1
    lines.insert(place, note)


def near(text, source):
    return str(max(0, int(text) + source.choice([-3, -2, -1, 1, 2, 3])))


def near_hex(text, source):
    return f"{max(0, int(text, 16) + source.choice([-1, 1, 1 << 32])):0{len(text)}x}"


def other_drop(word, source):
    return source.choice([w for w in ["junk", "early", "full", "lost"] if w != word])


# each change: of which line, and what is done with it
CHANGES = {
    "reply bytes": ("= reply", field(4, flipped)),
    "reply event": ("= reply", field(3, near)),
    "reply arrival": ("= reply", field(2, near)),
    "reply twice": ("= reply", twice),
    "reply gone": ("= reply", gone),
    "reply later": ("= reply", later),
    "effect moment": ("= did", field(3, near)),
    "effect fileid": ("= did", field(5, near)),
    "effect kept": ("= did", field(6, lambda text, source: "10"[int(text)])),
    "effect arrival": ("= did", field(2, near)),
    "effect twice": ("= did", twice),
    "effect gone": ("= did", gone),
    "effect later": ("= did", later),
    "flush gone": ("= flush", gone),
    "flush later": ("= flush", later),
    "flush twice": ("= flush", twice),
    "flush of another": ("= flush", field(2, near)),
    "verifier gone": ("= verf", gone),
    "verifier twice": ("= verf", twice),
    "verifier changed": ("= verf", field(2, near_hex)),
    "drop gone": ("= early", gone),
    "drop later": ("= early", later),
    "drop of another kind": ("= early", field(1, other_drop)),
    "loss gone": ("= lost", gone),
    "junk of another kind": ("= junk", field(1, other_drop)),
    "end gone": ("= down", gone),
    "frame number": ("= sent", field(2, near)),
    "frame header": ("= sent", field(3, header_changed)),
    "frame body": ("= sent", field(3, body_changed)),
    "frame gone": ("= sent", gone),
    "frame later": ("= sent", later),
    "another given": ("give", field(1, near)),
    "given again": ("give", twice),
    "not given": ("give", gone),
    "another lost": ("drop", field(1, near)),
    "no stop": ("stop", gone),
    "no tick": ("tick", gone),
}


def variants(text, source):
    """The transcript itself, and copies with one change each."""
    yield "whole", text
    for name in source.sample(sorted(CHANGES), len(CHANGES)):
        word, change = CHANGES[name]
        lines = text.split("\n")[:-1]
        found = [i for i, line in enumerate(lines) if line == word or line.startswith(word + " ")]
        if found:
            change(lines, source.choice(found), source)
            yield name, "\n".join(lines) + "\n"


# What the judge asks beyond the claims: in whose event an actor notes a reply or a verifier.
BEYOND = re.compile(r"an event of (actor|no actor)")


def claim_of(category, event, words, last):
    """The claim that a fault of the judge is one of, if it is one of these. Completion is claimed of the whole history, and is
    that all is answered by so many frames; the judge's faults of it in other events than the last are those of its fronts."""
    if category == "complete":
        is_of_all = words.startswith("no frame is in flight") or "frames are given" in words
        return "completed" if event == last and is_of_all else "another"
    if category == "licensed":
        return "fenced" if "after `verf" in words else "another" if words.startswith("`down") else "licensed"
    if category == "wired":
        return "another" if BEYOND.search(words) else "remembering" if "the reply to" in words else "wired"
    return "wired" if words.startswith("frame ") else category


def broken(text):
    """The claims that the judge finds a fault of, and what it says of them."""
    from judge import Judge
    judge = Judge(most=1000000)
    judge.faultless = False
    judge.judge(text.encode())
    last = sum(not line.startswith(("=", "at ", "volume ")) for line in text.splitlines())
    faults = [(category, *fault) for category, found in judge.failures.items() for fault in found]
    said = "\n".join(f"{category}, event {event}: {words}" for category, _, event, words in faults)
    return {claim_of(category, event, words, last) for category, _, event, words in faults}, said


def disagreement(due, got):
    """What is wrong with the referee's answers, if something is, where the judge finds faults of these claims. A fault of one
    claim may bring others with it that the two see otherwise; so where there are several, one of them has to be seen."""
    if sorted(got) != sorted(CLAIMS):
        return f"the answers are {got}"
    seen = due & set(CLAIMS)
    if not due and set(got.values()) != {"yes"}:
        return f"not all is right: {got}"
    if seen and not any(got[claim] == "no" for claim in seen):
        return f"no is said of none of {sorted(seen)}: {got}"
    return None


def call(procedure, arguments):
    """A call line of the first client, without a credential."""
    header = [7, 0, 2, 100003, 3, procedure, 0, 0, 0, 0]
    return "call 0 " + struct.pack(">10I", *header).hex() + arguments.hex()


def crowd(simulator):
    """1025 files are made, and one byte of each is written, to be made stable later: the last one's at once, since 1024 other
    files have such writes then."""
    root = struct.pack(">4sIQQII", b"SLH1", 0, 1, 1, 2, 0)
    lines = ["volume 1 switch 0 1 1 1", "flow 1000"]
    for k in range(1025):
        lines += [call(8, struct.pack(">I32sI4s7I", 32, root, 4, b"%04d" % k, 0, 0, 0, 0, 0, 0, 0)), "flow 1000"]
    made = replayed(simulator, "\n".join(lines) + "\n")
    # behind xid, header, status, and that a handle of 32 bytes follows
    handles = re.findall(r"^= reply \d+ \d+ .{8}" + "00000001" + 5 * "00000000" + "00000001" + "00000020" + "(.{64})", made, re.M)
    for handle in handles:
        lines += [call(7, struct.pack(">I32sQIII4s", 32, bytes.fromhex(handle), 0, 1, 0, 1, b"x")), "flow 1000"]
    return "\n".join(lines) + "\n"


def replayed(simulator, schedule):
    """The transcript of a schedule, or None where the simulator doesn't perform it."""
    words = [sys.executable, f"{simulator}/sim.py", "replay"]
    run = subprocess.run(words, input=schedule.encode(), capture_output=True)
    return run.stdout.decode() if run.returncode == 0 else None


def schedules(simulator, count):
    for name in sorted(os.listdir(f"{simulator}/rows")):
        with open(f"{simulator}/rows/{name}") as file:
            yield name, file.read()
    for k in range(count):
        mood = MOODS[k % len(MOODS)]
        words = [sys.executable, f"{simulator}/fuzz.py", str(k), "--mood", mood, "--steps", "150"]
        yield f"{mood} {k}", subprocess.run(words, capture_output=True).stdout.decode()
    yield "crowd", crowd(simulator)


def answers(referee, text):
    said = subprocess.run([referee], input=text.encode(), capture_output=True).stdout.decode()
    return dict(line.split(" ", 1) for line in said.splitlines() if " " in line)


def judged(task):
    simulator, referee, name, schedule = task
    transcript = replayed(simulator, schedule)
    if transcript is None:
        return Counter({"not performed by the simulator": 1}), []
    counts, wrong, tried = Counter(), [], 0
    for change, text in variants(transcript, random.Random(name)):
        got = answers(referee, text)
        if got.get("no") == "transcript":
            counts["no transcript any more"] += 1
            continue
        due, said = broken(text)
        counts[": ".join(["faults", " and ".join(sorted(due)) or "none"])] += 1
        what = disagreement(due, got)
        if what:
            wrong.append(f"{name}, {change}: {what}\n{said[:900]}")
        tried += 1
        if tried > TRIED:
            break
    return counts, wrong


def main():
    judge, simulator, count, referee = sys.argv[1], sys.argv[2], int(sys.argv[3]), sys.argv[4]
    sys.path.insert(0, os.path.dirname(judge))
    tasks = [(simulator, referee, name, text) for name, text in schedules(simulator, count)]
    counts, wrong = Counter(), []
    with ProcessPoolExecutor() as pool:
        for seen, bad in pool.map(judged, tasks):
            counts += seen
            wrong += bad
    print("; ".join(f"{what} {number}" for what, number in sorted(counts.items())))
    print("\n".join(wrong[:5]))
    total = sum(n for what, n in counts.items() if ": " in what)
    print(f"{total - len(wrong)} passed, {len(wrong)} failed")
    return 1 if wrong else 0


sys.exit(main())
