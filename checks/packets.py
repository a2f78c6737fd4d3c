"""Calls and replies that were changed at random, read by this repository's reader and by an independent one.

Use: packets.py FOLDER COUNT, where FOLDER has the independent reader nfsx.py."""
import random
import subprocess
import sys
from collections import Counter

sys.path.insert(0, sys.argv[1])
import nfsx  # noqa: E402

SIGNS_OF_NUMBERS = [0, 1, 2, 3, 4, 5, 6, 7, 8, 64, 65, 255, 65536, 2**31 - 1, 2**31, 2**32 - 4, 2**32 - 1]
PART_BEFORE = 24


class Traced(nfsx.Cursor):
    """A cursor that also keeps the canonical spelling of what it read, and where numbers and padding stand."""

    last = None

    def __init__(self, data, at=0):
        super().__init__(data, at)
        self.numbers, self.padding, self.pieces = [], [], []
        Traced.last = self

    def u32(self):
        at = self.i
        value = super().u32()
        self.numbers.append(at)
        self.pieces.append(nfsx.p32(value))
        return value

    def u64(self):
        value = super().u64()
        self.pieces.append(nfsx.p64(value))
        return value

    def raw(self, count):
        at = self.i
        data = super().raw(count)
        if count == PART_BEFORE:
            # what stood there before a call is read, and never written
            self.pieces[-1] = nfsx.p32(0)
            return data
        if count > PART_BEFORE:
            self.numbers.append(at)
        self.pieces.append(data)
        return data

    def opaque(self, most=2**32 - 1, zero=False):
        body = super().opaque(most, zero)
        padding = -len(body) % 4
        self.pieces.append(body + bytes(padding))
        if padding:
            self.padding.append((self.i - padding, self.i))
        return body


nfsx.Cursor = Traced


def call_as_read(procedure, data):
    """The canonical arguments, or None for garbage."""
    try:
        return nfsx.print_args(nfsx.read_args(procedure, data))
    except nfsx.Garbage:
        return None


def reply_as_read(procedure, data):
    """The canonical results, or None for garbage."""
    try:
        nfsx.results_fields(procedure, data)
    except nfsx.Garbage:
        return None
    return b"".join(Traced.last.pieces) if procedure else b""


AS_READ = {"call": call_as_read, "reply": reply_as_read}


class Packets:
    """Random packets of the grammar, and changes of them."""

    def __init__(self, seed):
        self.random = random.Random(seed)

    def number32(self):
        return self.random.choice([0, 1, 2, 8192, 2**31, 2**32 - 1, self.random.getrandbits(32)])

    def number64(self):
        return self.random.choice([0, 1, 2**40, 2**63, 2**64 - 1, self.random.getrandbits(64)])

    def u32(self):
        return nfsx.p32(self.number32())

    def u64(self):
        return nfsx.p64(self.number64())

    def flag(self):
        return nfsx.p32(self.random.randrange(2))

    def body(self, *most):
        return self.random.randbytes(self.random.choice([0, 1, 2, 3, 4, 5, *most]))

    def handle(self):
        return self.random.randbytes(self.random.choice([0, 1, 31, 32, 32, 32, 63, 64]))

    def name(self):
        return self.body(9, 255, 300)

    def chance(self, part):
        return part() if self.random.random() < 0.6 else None

    def time(self):
        return (self.number32(), self.number32())

    def sattr(self):
        times = [self.random.choice([None, "server", self.time()]) for _ in range(2)]
        numbers = [self.chance(self.number32) for _ in range(3)]
        return nfsx.Sattr(*numbers, self.chance(self.number64), *times)

    def fields(self, procedure):
        """The fields of a call, by the names that the independent reader gives them."""
        makers = {
            "fh": self.handle, "fh2": self.handle, "name": self.name, "name2": self.name, "sattr": self.sattr,
            "guard": lambda: self.chance(self.time), "bits": self.number32, "offset": self.number64,
            "count": self.number32, "stable": lambda: self.random.randrange(3), "data": lambda: self.body(700, 9000),
            "how": lambda: self.random.randrange(3), "verf": self.number64, "path": lambda: self.body(1024),
            "kind": lambda: self.random.randrange(1, 8), "major": self.number32, "minor": self.number32,
            "cookie": self.number64, "cverf": self.number64, "dircount": self.number32,
        }
        return {} if procedure == nfsx.NULL else {name: make() for name, make in makers.items()}

    def call(self, procedure):
        call = nfsx.Call(procedure)
        for name, value in self.fields(procedure).items():
            setattr(call, name, value)
        return nfsx.print_args(call)

    def optional(self, part):
        made = self.chance(part)
        return nfsx.p32(0) if made is None else nfsx.p32(1) + made

    def opaque(self, body):
        return nfsx.popaque(body)

    def fattr(self):
        numbers = self.u64() * 2 + self.u32() * 2 + self.u64() * 2
        kind = nfsx.p32(self.random.randrange(1, 8))
        return kind + b"".join(self.u32() for _ in range(4)) + numbers + self.random.randbytes(24)

    def attributes(self):
        return self.optional(self.fattr)

    def given_handle(self):
        return self.optional(lambda: self.opaque(self.handle()))

    def wcc(self):
        return self.optional(lambda: self.random.randbytes(PART_BEFORE)) + self.attributes()

    def entries(self, plus):
        out = b""
        for _ in range(self.random.choice([0, 1, 2, 5, 40])):
            out += nfsx.p32(1) + self.u64() + self.opaque(self.name()) + self.u64()
            if plus:
                out += self.attributes() + self.given_handle()
        return out + nfsx.p32(0)

    def good(self, procedure):
        """What follows the status OK, and what comes first in it."""
        made = lambda: self.given_handle() + self.attributes() + self.wcc()
        stable = lambda: nfsx.p32(self.random.randrange(3))
        return {
            nfsx.GETATTR: self.fattr,
            nfsx.LOOKUP: lambda: self.opaque(self.handle()) + self.attributes() + self.attributes(),
            nfsx.ACCESS: lambda: self.attributes() + self.u32(),
            nfsx.READLINK: lambda: self.attributes() + self.opaque(self.body(1024)),
            nfsx.READ: lambda: self.attributes() + self.u32() + self.flag() + self.opaque(self.body(700, 9000)),
            nfsx.WRITE: lambda: self.wcc() + self.u32() + stable() + self.u64(),
            nfsx.CREATE: made, nfsx.MKDIR: made, nfsx.SYMLINK: made, nfsx.MKNOD: made,
            nfsx.READDIR: lambda: self.attributes() + self.u64() + self.entries(False) + self.flag(),
            nfsx.READDIRPLUS: lambda: self.attributes() + self.u64() + self.entries(True) + self.flag(),
            nfsx.FSSTAT: lambda: self.attributes() + b"".join(self.u64() for _ in range(6)) + self.u32(),
            nfsx.FSINFO: lambda: self.attributes() + self.random.randbytes(7 * 4 + 8 + 8 + 4),
            nfsx.PATHCONF: lambda: self.attributes() + self.u32() * 2 + b"".join(self.flag() for _ in range(4)),
            nfsx.COMMIT: lambda: self.wcc() + self.u64(),
        }.get(procedure)

    def bad(self, procedure):
        """What follows the status of a failure, or any status where both have the same form."""
        if procedure == nfsx.GETATTR:
            return b""
        if procedure == nfsx.RENAME:
            return self.wcc() + self.wcc()
        if procedure == nfsx.LINK:
            return self.attributes() + self.wcc()
        changes = procedure in nfsx.CHANGING or procedure == nfsx.COMMIT
        return self.wcc() if changes else self.attributes()

    def reply(self, procedure):
        if procedure == nfsx.NULL:
            return b""
        status = self.random.choice([0, 0, 0, *nfsx.STATUS_NAMES])
        good = self.good(procedure)
        return nfsx.p32(status) + (good() if good and status == 0 else self.bad(procedure))

    # ---- changes

    def whole(self, data, trace):
        return data

    def cut(self, data, trace):
        return data[: self.random.randrange(len(data))]

    def padded(self, data, trace):
        data = bytearray(data)
        for start, end in trace.padding:
            data[start:end] = self.random.randbytes(end - start)
        return bytes(data)

    def flipped(self, data, trace):
        data = bytearray(data)
        for _ in range(self.random.choice([1, 1, 2, 3])):
            data[self.random.randrange(len(data))] ^= 1 << self.random.randrange(8)
        return bytes(data)

    def another_number(self, data, trace, number=None):
        at = self.random.choice(trace.numbers)
        number = self.random.choice(SIGNS_OF_NUMBERS) if number is None else number
        return data[:at] + nfsx.p32(number) + data[at + 4 :]

    def longest(self, data, trace):
        return self.another_number(data, trace, 2**32 - 1)

    def one_more_or_less(self, data, trace):
        at = self.random.choice(trace.numbers)
        number = int.from_bytes(data[at : at + 4], "big") + self.random.choice([-4, -1, 1, 4])
        return data[:at] + nfsx.p32(number % 2**32) + data[at + 4 :]

    def followed(self, data, trace):
        return data + self.random.randbytes(self.random.choice([1, 3, 4, 8]))

    def twice(self, data, trace):
        return self.flipped(self.another_number(data, trace), trace)

    def changed(self, kind, procedure):
        """A packet of this kind, changed, and the name of the change."""
        data = self.call(procedure) if kind == "call" else self.reply(procedure)
        AS_READ[kind](procedure, data)
        trace = Traced.last
        changes = [self.whole, self.followed]
        if data:
            changes += [self.cut, self.flipped, self.another_number, self.longest, self.one_more_or_less, self.twice]
        if data and trace.padding:
            changes += [self.padded, self.padded]
        change = self.random.choice(changes)
        return change(data, trace), change.__name__

    def asked(self, count):
        for i in range(count):
            kind = "call" if i % 2 else "reply"
            procedure = self.random.randrange(22)
            data, change = self.changed(kind, procedure)
            if kind == "call" and i % 200 == 1:
                procedure = self.random.choice([22, 23, 2**32 - 1])
            yield kind, procedure, data, change


def main():
    asked = list(Packets(20261130).asked(int(sys.argv[2])))
    requests = "".join(f"{kind} {procedure} {data.hex() or '-'}\n" for kind, procedure, data, _ in asked)
    answers = subprocess.run(["bin/reread"], input=requests.encode(), capture_output=True).stdout.decode().split("\n")
    wrong, kinds, garbage = [], Counter(), Counter()
    for (kind, procedure, data, change), answer in zip(asked, answers + [""] * len(asked)):
        should = AS_READ[kind](procedure, data)
        kinds[change] += 1
        garbage[change] += should is None
        if answer != ("garbage" if should is None else should.hex() or "-"):
            wrong.append(f"{change} {kind} {procedure} {data.hex()}: {answer}, should be {should and should.hex()}")
    print("\n".join(w[:1000] for w in wrong[:5]))
    print("; ".join(f"{name} {kinds[name]}, {garbage[name]} of them garbage" for name in sorted(kinds)))
    print(f"{len(asked) - kinds['whole']} of {len(asked)} are changed")
    print(f"{len(asked) - len(wrong)} passed, {len(wrong)} failed")
    return 1 if wrong else 0


sys.exit(main())
