"""Random schedules of datagrams that need no server, GETATTR calls, and frames given in any order, replayed and judged.

Use: judged.py JUDGE COUNT. The judge must find each transcript legal, licensed and wired."""
import glob
import random
import re
import subprocess
import sys
import tempfile
from concurrent.futures import ThreadPoolExecutor

# a volume with one directory server, and its number
VOLUMES = [("volume 1 switch 0 1 1 1", 1), ("volume 7 hash 0 1 4 8", 7), ("volume 0 switch 255 1 2 2", 0)]


def word(number):
    return number.to_bytes(4, "big")


def opaque(body, random):
    padding = bytes(random.choice([0, 0, 1, 255]) for _ in range(-len(body) % 4))
    return word(len(body)) + body + padding


def auth_sys(random):
    """The body of an AUTH_SYS credential, sometimes with too many groups or cut off."""
    groups = random.choice([0, 1, 16, 16, 17])
    machine = opaque(b"m" * random.choice([0, 3, 255, 256]), random)
    body = word(1) + machine + word(5) + word(6) + word(groups) + word(9) * groups
    return body[: random.choice([len(body), len(body), max(0, len(body) - 4)])]


def datagram(random):
    """A NULL call, a call that is refused, or junk: most fields are right, and few are wrong."""
    def mostly(right, others):
        return right if random.random() < 0.85 else random.choice(others)

    flavor = random.choice([0, 0, 0, 1, 1, 6])
    credential = auth_sys(random) if flavor == 1 else b"x" * random.choice([0, 0, 1, 400, 401])
    fields = [
        random.getrandbits(32),
        mostly(0, [1, 2]),
        mostly(2, [0, 1, 3]),
        mostly(100003, [100000, 100005, 0]),
        mostly(3, [2, 4]),
        mostly(0, [22, 23, 4294967295]),
    ]
    call = b"".join(word(f) for f in fields) + word(flavor) + opaque(credential, random)
    call += word(random.choice([0, 1, 9])) + opaque(b"v" * random.choice([0, 0, 4, 401]), random)
    call += bytes(random.choice([0, 0, 0, 5]))
    return call[: random.choice([len(call)] * 6 + [random.randrange(len(call) + 1)])]


def handle(random, volume):
    """The root's handle, or one that is stale, of another volume, or none."""
    fileid, kind, tail = 1, 2, bytes(4)
    which = random.randrange(10)
    if which == 0:
        fileid = random.choice([0, 2, 16384, 2**46 - 1, 2**46, 2**64 - 1])
    if which == 1:
        kind = random.choice([0, 1, 3, 5, 7, 8])
    if which == 2:
        volume += 1
    if which == 3:
        tail = word(random.choice([1, 16]))
    whole = b"SLH1" + bytes(4) + volume.to_bytes(8, "big") + fileid.to_bytes(8, "big") + word(kind) + tail
    return whole if which != 4 else random.choice([whole[:31], whole[:28], b"", b"x" * 64, b"x" * 65, b"x" + whole[1:]])


def getattr(random, volume):
    """A GETATTR call, sometimes cut off or with more behind it."""
    credential = random.choice([word(0) + opaque(b"", random), word(1) + opaque(auth_sys(random), random)])
    call = b"".join(word(f) for f in [random.getrandbits(32), 0, 2, 100003, 3, 1])
    call += credential + word(0) + word(0) + opaque(handle(random, volume), random)
    call += bytes(random.choice([0, 0, 0, 4]))
    return call[: random.choice([len(call)] * 9 + [len(call) - 4])]


def schedule(seed):
    """A schedule for that seed. Which frames are in flight at its gives isn't known here, so only `flow` gives them, but for
    those of the welcome."""
    source = random.Random(seed)
    line, volume = source.choice(VOLUMES)
    lines = [line]
    welcome = source.choice([["flow 2"], ["give 1", "give 2"], ["flow 1", "flow 1"], []])
    for turn in range(source.randrange(1, 40)):
        if turn == source.choice([0, 1, 2, 5]) and welcome:
            lines += welcome
            welcome = []
        data = getattr(source, volume) if source.random() < 0.6 else datagram(source)
        lines.append(f"call {source.choice([0, 1, 4294967295])} {data.hex() or '-'}")
        if not welcome and source.random() < 0.3:
            lines.append(f"flow {source.choice([1, 1, 2, 3, 1000000])}")
    return "\n".join(lines) + "\n"


def shuffled(transcript, seed):
    """The schedule of a transcript, and frames in flight at its end given in any order, each with its answer."""
    source = random.Random(seed)
    lines = [line for line in transcript.split("\n") if line and not line.startswith("=")]
    flying = set()
    for line in transcript.split("\n"):
        words = line.split(" ")
        if words[:2] == ["=", "sent"]:
            flying.add(int(words[2]))
        if words[0] == "give":
            flying.remove(int(words[1]))
    order = sorted(flying)
    source.shuffle(order)
    return "\n".join(lines + [f"give {k}" for k in order]) + "\n", len(flying)


def missed(judge, name, path):
    """What the judge doesn't find of a transcript, or nothing."""
    said = subprocess.run([sys.executable, judge, path], capture_output=True, text=True).stdout
    wrong = [w for w in ("legal", "licensed", "wired") if not re.search(rf"^{w} ok$", said, re.M)]
    return f"{name}: not {', '.join(wrong)}\n{said}" if wrong else None


def judged(judge, seed):
    """What is wrong with the transcript of a seed's schedule, or nothing. Frames that are in flight at its end are given in
    any order, twice: those that were sent, and their answers."""
    text = schedule(seed)
    for _ in range(3):
        run = subprocess.run(["bin/slice", "replay"], input=text.encode(), capture_output=True)
        if run.returncode != 0:
            return f"seed {seed}: status {run.returncode} {run.stderr.decode().strip()}"
        text, flying = shuffled(run.stdout.decode(), seed)
        if not flying:
            break
    with tempfile.NamedTemporaryFile(suffix=".transcript") as file:
        file.write(run.stdout)
        file.flush()
        return missed(judge, f"seed {seed}", file.name)


def main():
    judge, count = sys.argv[1], int(sys.argv[2])
    subprocess.run(["bin/slice", "replay"], input=b"", capture_output=True)
    with ThreadPoolExecutor(2) as pool:
        found = list(pool.map(lambda seed: judged(judge, seed), range(count)))
    found += [missed(judge, path, path) for path in sorted(glob.glob("examples/**/*.transcript", recursive=True))]
    wrong = [w for w in found if w]
    print("\n".join(wrong[:5]))
    print(f"{len(found) - len(wrong)} passed, {len(wrong)} failed")
    return 1 if wrong else 0


sys.exit(main())
