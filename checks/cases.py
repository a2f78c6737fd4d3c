"""The table of cases of the plain server, performed by an independent one: each row is answered as it says.

Use: cases.py FOLDER TABLE [fill], where FOLDER has the independent server volume.py, and TABLE is a table as
crates/plain_cases/src/main.rt describes it. With `fill` the table is printed, with the bytes of the independent server's
reply in the place of each `?`; the statuses are those of the table in any case."""
import sys

sys.path.insert(0, sys.argv[1])
import nfsx  # noqa: E402
from volume import Volume  # noqa: E402

NUMBER = 7
KINDS = {"reg": nfsx.REG, "dir": nfsx.DIR, "blk": nfsx.BLK, "chr": nfsx.CHR, "lnk": nfsx.LNK, "sock": nfsx.SOCK,
         "fifo": nfsx.FIFO}
PROCEDURES = {name.lower(): number for number, name in enumerate(nfsx.PROC_NAMES)}
STABLE = {"unstable": nfsx.UNSTABLE, "datasync": nfsx.DATA_SYNC, "filesync": nfsx.FILE_SYNC}
HOW = {"unchecked": nfsx.UNCHECKED, "guarded": nfsx.GUARDED, "exclusive": nfsx.EXCLUSIVE}
# what follows the first handle
ARGUMENTS = {
    "setattr": ("guard", "sattr"), "lookup": ("name",), "access": ("bits",), "read": ("offset", "count"),
    "write": ("offset", "count", "stable", "data"), "create": ("name", "how"), "mkdir": ("name", "sattr"),
    "symlink": ("name", "path", "sattr"), "mknod": ("name", "kind"), "remove": ("name",), "rmdir": ("name",),
    "rename": ("name", "fh2", "name2"), "link": ("fh2", "name"), "readdir": ("cookie", "cverf", "count"),
    "readdirplus": ("cookie", "cverf", "dircount", "count"), "commit": ("offset", "count"),
}


def time_of(word):
    sec, nsec = word.split(".")
    return int(sec), int(nsec)


class Words:
    """The words of a call, in the round in which they are read."""

    def __init__(self, text, number):
        self.words, self.round = text.split(" ") if text else [], number

    def word(self):
        return self.words.pop(0)

    def bytes(self):
        word = self.word()
        if word == "%":
            return str(self.round).encode()
        if word[1:2] == "*":
            return word[0].encode() * int(word[2:])
        return bytes.fromhex(word[4:]) if word.startswith("hex:") else word.encode()

    def handle(self):
        kind, fileid = self.words[0].rstrip("0123456789"), self.words[0].lstrip("abcdefghijklmnopqrstuvwxyz")
        if not fileid.isdigit() or kind not in [*KINDS, "far"]:
            return self.bytes()
        self.word()
        volume = NUMBER + 1 if kind == "far" else NUMBER
        return nfsx.handle(volume, int(fileid), KINDS.get(kind, nfsx.DIR))

    def sattr(self):
        sattr = nfsx.Sattr()
        while self.words:
            name, value = self.word().split("=")
            timed = name in ("atime", "mtime")
            setattr(sattr, name, int(value) if not timed else "server" if value == "now" else time_of(value))
        return sattr

    def guard(self):
        return time_of(self.word()[6:]) if self.words and self.words[0].startswith("guard=") else None

    def set_how(self, call):
        call.how = HOW[self.word()]
        if call.how == nfsx.EXCLUSIVE:
            call.verf = int(self.word())
        else:
            call.sattr = self.sattr()

    def set_kind(self, call):
        call.kind = KINDS[self.word()]
        if call.kind in (nfsx.BLK, nfsx.CHR):
            call.major, call.minor = int(self.word()), int(self.word())
        if call.kind not in (nfsx.REG, nfsx.DIR, nfsx.LNK):
            call.sattr = self.sattr()

    def set(self, call, field):
        if field in ("how", "kind"):
            getattr(self, "set_" + field)(call)
        elif field in ("sattr", "guard"):
            setattr(call, field, getattr(self, field)())
        elif field in ("name", "name2", "path", "data"):
            setattr(call, field, self.bytes())
        else:
            setattr(call, field, self.handle() if field == "fh2" else (STABLE.get if field == "stable" else int)(self.word()))

    def call(self):
        procedure = self.word()
        call = nfsx.Call(PROCEDURES[procedure])
        if call.proc != nfsx.NULL:
            call.fh = self.handle()
        for field in ARGUMENTS.get(procedure, ()):
            self.set(call, field)
        assert not self.words, self.words
        return call


class Case:
    """A volume, and what its next call is performed with."""

    def __init__(self):
        self.volume, self.at, self.by, self.next = Volume(NUMBER), (0, 0), (0, 0), 2
        self.full = self.kept = False

    def told(self, row):
        """Whether the row is no call."""
        word, *rest = row.split(" ")
        if word == "at":
            self.at = time_of(rest[0])
        elif word == "by":
            self.by = int(rest[0]), int(rest[1])
        elif word in ("full", "kept"):
            setattr(self, word, True)
        elif word == "flush":
            self.volume.flush(int(rest[0]))
        elif word == "restart":
            self.volume.restart(int(rest[0]))
        else:
            return False
        return True

    def performed(self, text, number):
        """The status and the bytes of a reply's results."""
        call = Words(text, number).call()
        call.xid = number
        call = nfsx.read_head(nfsx.print_call(call, nfsx.authsys(*self.by))).call
        if call.proc == nfsx.NULL:
            return "OK", ""
        kept = self.kept or bool(call.stable)
        reply, _ = self.volume.perform(call, self.at, 0 if self.full else self.next, kept)
        status = nfsx.STATUS_NAMES[int.from_bytes(reply[24:28], "big")]
        if call.proc == nfsx.COMMIT and status == "OK":
            self.volume.flush(call.h1[1])
        if self.next in self.volume.used:
            self.next += 1
        return status, reply[24:].hex()


def filled(case, row):
    """The row with the bytes of the reply, and whether the answer is the row's."""
    text, said = row.split(" = ")
    status, *digits = said.split(" ")
    times = text.startswith("times ")
    count, text = text[6:].split(" ", 1) if times else (1, text)
    for number in range(1, int(count) + 1):
        found, reply = case.performed(text, number if times else 0)
        if found != status or digits not in ([], ["?"], [reply]):
            return f"{row}: {found} {reply}", False
    return row.replace("?", reply) if digits else row, True


def main():
    case, rows, wrong = None, [], []
    for row in open(sys.argv[2]).read().splitlines():
        if row.startswith(": "):
            case = Case()
        elif row and not row.startswith("# ") and not case.told(row):
            row, good = filled(case, row)
            wrong += [] if good else [row]
        rows.append(row)
    if sys.argv[3:] == ["fill"]:
        print("\n".join(rows))
    print("\n".join(wrong), file=sys.stderr)
    print(f"{sum(' = ' in row for row in rows)} calls, {len(wrong)} answered otherwise", file=sys.stderr)
    return 1 if wrong else 0


if __name__ == "__main__":
    sys.exit(main())
