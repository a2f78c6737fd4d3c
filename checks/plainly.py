"""Random calls over few names, performed by this repository's plain server and by an independent one. The replies are
compared as printed bytes.

Use: plainly.py FOLDER COUNT SEED.., where FOLDER has the independent server volume.py; COUNT requests for each seed."""
import random
import subprocess
import sys
from collections import Counter

sys.path.insert(0, sys.argv[1])
import nfsx  # noqa: E402
from nfsx import BLK, CHR, DIR, FIFO, LNK, REG, SOCK  # noqa: E402
from volume import Volume  # noqa: E402

NUMBER = 7
KINDS = (REG, DIR, BLK, CHR, LNK, SOCK, FIFO)
NAMES = [b"a", b"b", b"c", b"dd", b"e" * 255]
ODD_NAMES = [b".", b"..", b"", b"x/y", b"z\0", b"f" * 256]
OFFSETS = [0, 1, 9, 10, 8191, 8192, 8193, 100000, 2**40 - 1, 2**40, 2**40 + 1, 2**64 - 1]
COUNTS = [0, 1, 5, 19, 20, 47, 48, 75, 76, 130, 400, 8192, 8193, 2**32 - 1]
COOKIES = [0, 0, 0, 1, 2, 3, 5, 2**63]
ODD_HANDLES = [
    b"",
    b"short",
    nfsx.handle(8, 1, DIR),
    nfsx.handle(NUMBER, 99999999, REG),
    nfsx.handle(NUMBER, 1, REG),
    nfsx.handle(NUMBER, 1, DIR, b"\0\0\0\1"),
]
# changing procedures come more often, so that objects come and go
PROCEDURES = [
    *range(22), nfsx.SETATTR, nfsx.READ, *[nfsx.WRITE] * 3, nfsx.CREATE, nfsx.CREATE, nfsx.MKDIR, nfsx.REMOVE,
    nfsx.RMDIR, *[nfsx.RENAME] * 3, nfsx.LINK,
]
NAMED = (
    nfsx.LOOKUP, nfsx.CREATE, nfsx.MKDIR, nfsx.SYMLINK, nfsx.MKNOD, nfsx.REMOVE, nfsx.RMDIR, nfsx.RENAME, nfsx.LINK,
)
KINDS_AT = {
    nfsx.READLINK: (LNK,), nfsx.READ: (REG,), nfsx.WRITE: (REG,), nfsx.COMMIT: (REG,), nfsx.SETATTR: KINDS,
    nfsx.GETATTR: KINDS, nfsx.ACCESS: KINDS, nfsx.FSSTAT: KINDS, nfsx.FSINFO: KINDS, nfsx.PATHCONF: KINDS,
    nfsx.LINK: (REG, LNK, FIFO, SOCK, BLK, CHR),
}


class Requests:
    """Random requests, and the independent server's answers to them."""

    def __init__(self, seed):
        self.random = random.Random(seed)
        self.volume = Volume(NUMBER)
        self.fileid = 2
        self.sec = 10

    def chance(self, likely, make):
        return make() if self.random.random() < likely else None

    # ---- calls

    def name(self):
        return self.random.choice(NAMES if self.random.random() < 0.93 else ODD_NAMES)

    def handle(self, kinds):
        """Mostly that of a live object of one of the kinds."""
        likely = self.random.random()
        if likely < 0.02:
            return self.random.choice(ODD_HANDLES)
        live = list(self.volume.nodes.values())
        fit = [node for node in live if node.kind in kinds] if likely < 0.94 else live
        return self.volume.handle(self.random.choice(fit or live))

    def time(self):
        nsec = 10**9 if self.random.random() < 0.02 else self.random.randrange(10**9)
        return self.random.choice(["server", (self.random.getrandbits(32), nsec)])

    def sattr(self, sized=0.1):
        def number():
            return self.random.getrandbits(32)

        sizes = self.chance(sized, lambda: self.random.choice(OFFSETS))
        times = [self.chance(0.2, self.time) for _ in range(2)]
        return nfsx.Sattr(self.chance(0.3, number), self.chance(0.2, number), self.chance(0.2, number), sizes, *times)

    def guard(self):
        node = self.random.choice(list(self.volume.nodes.values()))
        return (node.view or node).ctime

    def for_bytes(self, call):
        call.offset = self.random.choice([*OFFSETS, 0, 0, 3, 8190])
        call.count = self.random.choice(COUNTS)
        if call.proc == nfsx.WRITE:
            call.data = self.random.randbytes(self.random.choice([0, 1, 5, 12, 40]))
            if self.random.random() < 0.8:
                call.count = len(call.data)
            call.stable = self.random.choice([0, 0, 0, 1, 2])

    def for_making(self, call):
        if call.proc == nfsx.CREATE:
            call.how = self.random.randrange(3)
            call.verf = self.random.randrange(3)
        call.sattr = self.sattr(0.3 if call.proc == nfsx.CREATE else 0.1)
        call.path = b"p" * self.random.choice([0, 1, 5, 1024, 1025])
        call.kind = self.random.randrange(1, 8)
        call.major, call.minor = self.random.getrandbits(32), self.random.getrandbits(32)

    def for_listing(self, call):
        call.cookie = self.random.choice(COOKIES)
        call.cverf = self.random.choice([0] * 9 + [1])
        call.dircount, call.count = self.random.choice(COUNTS), self.random.choice(COUNTS)

    def call(self):
        call = nfsx.Call(self.random.choice(PROCEDURES))
        call.fh = self.handle(KINDS_AT.get(call.proc, (DIR,)))
        if call.proc in NAMED:
            call.name = self.name()
        if call.proc in (nfsx.RENAME, nfsx.LINK):
            call.fh2, call.name2 = self.handle((DIR,)), self.name()
        if call.proc == nfsx.SETATTR:
            call.sattr, call.guard = self.sattr(0.3), self.chance(0.3, self.guard)
        if call.proc == nfsx.ACCESS:
            call.bits = self.random.getrandbits(32)
        if call.proc in (nfsx.READ, nfsx.WRITE, nfsx.COMMIT):
            self.for_bytes(call)
        if call.proc in (nfsx.CREATE, nfsx.MKDIR, nfsx.SYMLINK, nfsx.MKNOD):
            self.for_making(call)
        if call.proc in (nfsx.READDIR, nfsx.READDIRPLUS):
            self.for_listing(call)
        return call

    def datagram(self, xid):
        """Mostly a call's; at times one that was cut."""
        call = self.call()
        call.xid = xid
        gids = [self.random.getrandbits(32) for _ in range(self.random.choice([0, 0, 1, 16]))]
        by = nfsx.authsys(self.random.getrandbits(32), 6, gids) if self.random.random() < 0.8 else None
        data = nfsx.print_call(call, by)
        return data if self.random.random() < 0.98 else data[: self.random.randrange(len(data))]

    # ---- requests and their answers

    def performed(self, data, at, fileid, kept):
        head = nfsx.read_head(data)
        if head.order == 8:
            return "garbage"
        if head.call is None:
            return "no call"
        call = head.call
        if call.proc == nfsx.NULL:
            return head.reply.hex()
        reply, _ = self.volume.perform(call, at, fileid, kept or bool(call.stable))
        if call.proc == nfsx.COMMIT and status_of(reply) == 0:
            self.volume.flush(call.h1[1])
        if fileid in self.volume.used:
            self.fileid = fileid + 1
        return reply.hex()

    def restarted(self):
        verifier = self.random.getrandbits(64)
        self.volume.restart(verifier)
        return f"restart {verifier}", "restarted"

    def flushed(self):
        file = self.random.choice(list(self.volume.dirty) or [1])
        self.volume.flush(file)
        return f"flush {file}", "flushed"

    def request(self, xid):
        likely = self.random.random()
        if likely < 0.003:
            return self.restarted()
        if likely < 0.01:
            return self.flushed()
        data = self.datagram(xid)
        self.sec += self.random.choice([0, 0, 1])
        at = self.sec, self.random.choice([0, 5])
        fileid = 0 if self.random.random() < 0.05 else self.fileid
        kept = self.random.random() < 0.3
        return f"call {at[0]} {at[1]} {fileid} {kept:d} {data.hex() or '-'}", self.performed(data, at, fileid, kept)


def status_of(reply):
    return int.from_bytes(reply[24:28], "big")


def case_of(request, answer):
    """A procedure and a status, or a word."""
    if " " in answer or answer in ("garbage", "restarted", "flushed"):
        return answer
    procedure = int.from_bytes(bytes.fromhex(request.split()[5])[20:24], "big")
    return nfsx.PROC_NAMES[procedure] + " " + nfsx.STATUS_NAMES[status_of(bytes.fromhex(answer))]


def compare(seed, count):
    """The cases that were seen, and the requests whose answers differ."""
    requests = Requests(seed)
    asked = [requests.request(xid) for xid in range(count)]
    given = "".join(request + "\n" for request, _ in asked)
    answers = subprocess.run(["bin/plainly"], input=given.encode(), stdout=subprocess.PIPE).stdout.decode().split("\n")
    answers += [""] * (count + 1 - len(answers))
    wrong = [
        f"seed {seed}, {request}: {answer}, should be {should}"
        for (request, should), answer in zip(asked, answers)
        if answer != should
    ]
    return Counter(case_of(*one) for one in asked), wrong


def main():
    count, seeds = int(sys.argv[2]), [int(seed) for seed in sys.argv[3:]]
    seen, wrong = Counter(), []
    for seed in seeds:
        cases, differ = compare(seed, count)
        seen += cases
        wrong += differ
    print("\n".join(w[:1000] for w in wrong[:5]))
    print("; ".join(f"{case} {seen[case]}" for case in sorted(seen)))
    pairs = [case for case in seen if case.split()[-1] in nfsx.STATUS_NAMES.values()]
    calls = sum(seen.values()) - seen["restarted"] - seen["flushed"]
    print(f"{calls} calls, {len(pairs)} pairs of procedure and status, {len(wrong)} answers differ")
    return 1 if wrong else 0


if __name__ == "__main__":
    sys.exit(main())
