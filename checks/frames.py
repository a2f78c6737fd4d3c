"""Frames of a simulator, and changed ones, read and printed again by `reframe`.

Use: frames.py SIMULATOR READER COUNT. SIMULATOR is the folder of a simulator of the protocol, READER that of another
reader of frames, and COUNT how many random schedules are made."""
import pathlib
import random
import subprocess
import sys
from concurrent.futures import ThreadPoolExecutor

MOODS = ("calm", "lossy", "stops", "data", "names", "coord", "held", "whole", "power", "ghost")
# Where a frame's kind, tag, low, op, boot and arrival stand.
KIND = 2
TAG, LOW, OP, BOOT, ARRIVAL = range(12, 52, 8)


def run(simulator, words, text=b""):
    return subprocess.run([sys.executable, *words], input=text, capture_output=True, cwd=simulator).stdout


def sent(simulator, schedule):
    """The frames that are sent in a schedule."""
    transcript = run(simulator, ["sim.py", "replay"], schedule).decode()
    return {line.split(" ")[3] for line in transcript.splitlines() if line.startswith("= sent ")}


def random_schedule(simulator, seed):
    return run(simulator, ["fuzz.py", str(seed), "--mood", MOODS[seed % len(MOODS)]])


def used_fields(frame, frames):
    """Where the fields stand that a frame's header uses, besides the fence."""
    kind, is_data = frame[KIND], frame[0] >= 32
    if kind in (frames.HELLO, frames.WELCOME):
        return ()
    if kind in (frames.FORWARD, frames.ASK, frames.LIST, frames.MINT, frames.INTENT):
        return (TAG, LOW, ARRIVAL) + ((BOOT,) if kind == frames.FORWARD else ())
    if kind in (frames.PACKET, frames.FOUND, frames.LISTED, frames.MINTED, frames.DECIDED):
        return (TAG, BOOT) if is_data else (TAG,)
    if kind == frames.REFUSE and frame[1] == 0:
        return (TAG, BOOT)
    return (OP, BOOT) if is_data or kind == frames.LOCK else (OP,)


def read_found(frame, reader):
    """Reads the cells of a Found: each has its mark."""
    cursor = reader.Cursor(frame, 52)
    for _ in range(cursor.u32()):
        mark = cursor.u32()
        if mark == 1:
            reader.read_attr_cell(cursor)
        elif mark == 2:
            reader.read_name_cell(cursor)
        elif mark:
            raise reader.Garbage(f"mark {mark}")
    cursor.end()


def look_at_fileids(reader):
    """The other reader takes attributes of any fileid; those of a cell are of an object."""
    read = reader.read_fattr

    def read_object(cursor):
        attributes = read(cursor)
        if not 1 <= int.from_bytes(attributes[52:60], "big") <= reader.MOST_ID:
            raise reader.Garbage("fileid in attributes")
        return attributes

    reader.read_fattr = read_object


def is_frame(frame, reader):
    """Whether the other reader takes these bytes, and the header has no other field than those in use."""
    try:
        if reader.read_frame(frame).kind == reader.FOUND:
            read_found(frame, reader)
    except reader.Garbage:
        return False
    unused = {TAG, LOW, OP, BOOT, ARRIVAL} - set(used_fields(frame, reader))
    return not any(any(frame[place : place + 8]) for place in unused)


def changed(frame, source):
    """The frame with a few bytes of its head or its body changed, cut off or added."""
    out = bytearray(frame)
    for _ in range(source.choice([1, 1, 1, 2])):
        how = source.randrange(6)
        if how == 0:
            out = out[: source.randrange(len(out) + 1)]
        elif how == 1:
            out += bytes([source.choice([0, 0, 1])] * source.choice([1, 4]))
        elif out:
            place = source.randrange(min(len(out), 4 if how == 2 else 52 if how == 3 else len(out)))
            out[place] = source.choice([0, 1, 2, 16, 32, 48, 255, (out[place] + 1) % 256, out[place] ^ 128])
    return bytes(out)


def main():
    simulator, folder, count = sys.argv[1], sys.argv[2], int(sys.argv[3])
    sys.path.insert(0, folder)
    import frames as reader

    look_at_fileids(reader)
    rows = [path.read_bytes() for path in sorted(pathlib.Path(simulator, "rows").glob("*.sched"))]
    with ThreadPoolExecutor(2) as pool:
        schedules = rows + list(pool.map(lambda seed: random_schedule(simulator, seed), range(count)))
        whole = sorted(set().union(*pool.map(lambda schedule: sent(simulator, schedule), schedules)))
    source = random.Random(1)
    others = [changed(bytes.fromhex(source.choice(whole)), source) for _ in range(4 * len(whole))]
    lines = whole + [frame.hex() for frame in others]
    expected = whole + [frame.hex() if is_frame(frame, reader) else "bad" for frame in others]
    printed = subprocess.run(["bin/run", "reframe"], input="\n".join(lines).encode() + b"\n", capture_output=True)
    answers = printed.stdout.decode().splitlines()
    wrong = [f"{line}: {answer}, not {right}" for line, answer, right in zip(lines, answers, expected) if answer != right]
    missing = abs(len(lines) - len(answers))
    print("\n".join(wrong[:5]))
    read = sum(right != "bad" for right in expected[len(whole):])
    print(f"{len(whole)} frames, {len(others)} changed ones of which {read} are frames")
    print(f"{len(lines) - len(wrong) - missing} passed, {len(wrong) + missing} failed")
    return 1 if wrong or missing or printed.returncode else 0


if __name__ == "__main__":
    sys.exit(main())
