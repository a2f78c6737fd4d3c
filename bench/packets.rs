//! `packets TIMES`: reading calls and writing replies in plain Rust.
//!
//! It has the same input and output as the program `packets_bench`, but knows only the ten procedures that
//! bench/packets.sh takes. What is read owns its bytes, and what is written is appended to a buffer that is kept.
// The fields of a call are read, and nobody looks at them.
#![allow(dead_code)]

use std::hint::black_box;
use std::io::{self, BufRead};
use std::time::Instant;

type Fh = Vec<u8>;

#[derive(Clone, Copy)]
struct Time {
    sec: u32,
    nsec: u32,
}

#[derive(Clone, Copy)]
enum Kind {
    Reg = 1,
    Dir,
    Blk,
    Chr,
    Lnk,
    Sock,
    Fifo,
}

#[derive(Clone, Copy)]
enum Stable {
    Unstable,
    DataSync,
    FileSync,
}

#[derive(Clone, Copy)]
enum SetTime {
    Keep,
    Server,
    Client(Time),
}

#[derive(Clone, Copy)]
struct Sattr {
    mode: Option<u32>,
    uid: Option<u32>,
    gid: Option<u32>,
    size: Option<u64>,
    atime: SetTime,
    mtime: SetTime,
}

#[derive(Clone, Copy)]
struct Fattr {
    kind: Kind,
    numbers: [u32; 4],
    sizes: [u64; 2],
    device: [u32; 2],
    place: [u64; 2],
    times: [Time; 3],
}

enum CreateHow {
    Unchecked(Sattr),
    Guarded(Sattr),
    Exclusive(u64),
}

enum Call {
    Getattr { object: Fh },
    Setattr { object: Fh, attributes: Sattr, guard: Option<Time> },
    Lookup { dir: Fh, name: Vec<u8> },
    Access { object: Fh, bits: u32 },
    Read { file: Fh, offset: u64, count: u32 },
    Write { file: Fh, offset: u64, count: u32, stable: Stable, bytes: Vec<u8> },
    Create { dir: Fh, name: Vec<u8>, how: CreateHow },
    Remove { dir: Fh, name: Vec<u8> },
    Readdirplus { dir: Fh, cookie: u64, verifier: u64, dircount: u32, maxcount: u32 },
    Commit { file: Fh, offset: u64, count: u32 },
}

struct EntryPlus {
    fileid: u64,
    name: Vec<u8>,
    cookie: u64,
    attributes: Option<Fattr>,
    handle: Option<Fh>,
}

/// A reply with status OK.
enum Reply {
    Getattr(Fattr),
    Setattr { after: Option<Fattr> },
    Lookup { object: Fh, attributes: Option<Fattr>, dir_attributes: Option<Fattr> },
    Access { attributes: Option<Fattr>, bits: u32 },
    Read { attributes: Option<Fattr>, count: u32, eof: bool, bytes: Vec<u8> },
    Write { after: Option<Fattr>, count: u32, committed: Stable, verifier: u64 },
    Create { object: Option<Fh>, attributes: Option<Fattr>, after: Option<Fattr> },
    Remove { after: Option<Fattr> },
    Readdirplus { attributes: Option<Fattr>, verifier: u64, entries: Vec<EntryPlus>, eof: bool },
    Commit { after: Option<Fattr>, verifier: u64 },
}

// ---- reading

struct Cursor<'a> {
    rest: &'a [u8],
}

impl<'a> Cursor<'a> {
    fn take(&mut self, count: usize) -> Option<&'a [u8]> {
        let (front, rest) = self.rest.split_at_checked(count)?;
        self.rest = rest;
        Some(front)
    }

    fn u32(&mut self) -> Option<u32> {
        Some(u32::from_be_bytes(self.take(4)?.try_into().ok()?))
    }

    fn u64(&mut self) -> Option<u64> {
        Some(u64::from_be_bytes(self.take(8)?.try_into().ok()?))
    }

    fn flag(&mut self) -> Option<bool> {
        match self.u32()? {
            0 => Some(false),
            1 => Some(true),
            _ => None,
        }
    }

    fn optional<A>(&mut self, part: impl Fn(&mut Self) -> Option<A>) -> Option<Option<A>> {
        if self.flag()? { Some(Some(part(self)?)) } else { Some(None) }
    }

    fn opaque(&mut self, most: u32) -> Option<Vec<u8>> {
        let length = self.u32()?;
        if length > most {
            return None;
        }
        let body = self.take(length as usize)?;
        self.take((4 - length as usize % 4) % 4)?;
        Some(body.to_vec())
    }

    fn fh(&mut self) -> Option<Fh> {
        self.opaque(64)
    }

    fn bytes(&mut self) -> Option<Vec<u8>> {
        self.opaque(u32::MAX)
    }

    fn time(&mut self) -> Option<Time> {
        Some(Time { sec: self.u32()?, nsec: self.u32()? })
    }

    fn set_time(&mut self) -> Option<SetTime> {
        match self.u32()? {
            0 => Some(SetTime::Keep),
            1 => Some(SetTime::Server),
            2 => Some(SetTime::Client(self.time()?)),
            _ => None,
        }
    }

    fn sattr(&mut self) -> Option<Sattr> {
        Some(Sattr {
            mode: self.optional(Self::u32)?,
            uid: self.optional(Self::u32)?,
            gid: self.optional(Self::u32)?,
            size: self.optional(Self::u64)?,
            atime: self.set_time()?,
            mtime: self.set_time()?,
        })
    }

    fn stable(&mut self) -> Option<Stable> {
        match self.u32()? {
            0 => Some(Stable::Unstable),
            1 => Some(Stable::DataSync),
            2 => Some(Stable::FileSync),
            _ => None,
        }
    }

    fn kind(&mut self) -> Option<Kind> {
        let kinds = [Kind::Reg, Kind::Dir, Kind::Blk, Kind::Chr, Kind::Lnk, Kind::Sock, Kind::Fifo];
        kinds.get((self.u32()? as usize).checked_sub(1)?).copied()
    }

    fn fattr(&mut self) -> Option<Fattr> {
        Some(Fattr {
            kind: self.kind()?,
            numbers: [self.u32()?, self.u32()?, self.u32()?, self.u32()?],
            sizes: [self.u64()?, self.u64()?],
            device: [self.u32()?, self.u32()?],
            place: [self.u64()?, self.u64()?],
            times: [self.time()?, self.time()?, self.time()?],
        })
    }

    fn attributes(&mut self) -> Option<Option<Fattr>> {
        self.optional(Self::fattr)
    }

    /// What stood there after a call; what stood there before it is passed over.
    fn wcc(&mut self) -> Option<Option<Fattr>> {
        if self.flag()? {
            self.take(24)?;
        }
        self.attributes()
    }

    fn create_how(&mut self) -> Option<CreateHow> {
        match self.u32()? {
            0 => Some(CreateHow::Unchecked(self.sattr()?)),
            1 => Some(CreateHow::Guarded(self.sattr()?)),
            2 => Some(CreateHow::Exclusive(self.u64()?)),
            _ => None,
        }
    }

    fn entry(&mut self) -> Option<EntryPlus> {
        Some(EntryPlus {
            fileid: self.u64()?,
            name: self.bytes()?,
            cookie: self.u64()?,
            attributes: self.attributes()?,
            handle: self.optional(Self::fh)?,
        })
    }

    fn entries(&mut self) -> Option<Vec<EntryPlus>> {
        let mut entries = Vec::new();
        while self.flag()? {
            entries.push(self.entry()?);
        }
        Some(entries)
    }
}

fn read_call(procedure: u32, bytes: &[u8]) -> Option<Call> {
    let mut c = Cursor { rest: bytes };
    Some(match procedure {
        1 => Call::Getattr { object: c.fh()? },
        2 => Call::Setattr { object: c.fh()?, attributes: c.sattr()?, guard: c.optional(Cursor::time)? },
        3 => Call::Lookup { dir: c.fh()?, name: c.bytes()? },
        4 => Call::Access { object: c.fh()?, bits: c.u32()? },
        6 => Call::Read { file: c.fh()?, offset: c.u64()?, count: c.u32()? },
        7 => {
            let (file, offset, count) = (c.fh()?, c.u64()?, c.u32()?);
            Call::Write { file, offset, count, stable: c.stable()?, bytes: c.bytes()? }
        }
        8 => Call::Create { dir: c.fh()?, name: c.bytes()?, how: c.create_how()? },
        12 => Call::Remove { dir: c.fh()?, name: c.bytes()? },
        17 => {
            let (dir, cookie, verifier) = (c.fh()?, c.u64()?, c.u64()?);
            Call::Readdirplus { dir, cookie, verifier, dircount: c.u32()?, maxcount: c.u32()? }
        }
        21 => Call::Commit { file: c.fh()?, offset: c.u64()?, count: c.u32()? },
        _ => return None,
    })
}

fn read_reply(procedure: u32, bytes: &[u8]) -> Option<Reply> {
    let mut c = Cursor { rest: bytes };
    if c.u32()? != 0 {
        return None;
    }
    let reply = match procedure {
        1 => Reply::Getattr(c.fattr()?),
        2 => Reply::Setattr { after: c.wcc()? },
        3 => Reply::Lookup { object: c.fh()?, attributes: c.attributes()?, dir_attributes: c.attributes()? },
        4 => Reply::Access { attributes: c.attributes()?, bits: c.u32()? },
        6 => Reply::Read { attributes: c.attributes()?, count: c.u32()?, eof: c.flag()?, bytes: c.bytes()? },
        7 => Reply::Write { after: c.wcc()?, count: c.u32()?, committed: c.stable()?, verifier: c.u64()? },
        8 => Reply::Create { object: c.optional(Cursor::fh)?, attributes: c.attributes()?, after: c.wcc()? },
        12 => Reply::Remove { after: c.wcc()? },
        17 => {
            let (attributes, verifier) = (c.attributes()?, c.u64()?);
            Reply::Readdirplus { attributes, verifier, entries: c.entries()?, eof: c.flag()? }
        }
        21 => Reply::Commit { after: c.wcc()?, verifier: c.u64()? },
        _ => return None,
    };
    c.rest.is_empty().then_some(reply)
}

// ---- writing

fn put_u32(out: &mut Vec<u8>, n: u32) {
    out.extend_from_slice(&n.to_be_bytes());
}

fn put_u64(out: &mut Vec<u8>, n: u64) {
    out.extend_from_slice(&n.to_be_bytes());
}

fn put_opaque(out: &mut Vec<u8>, bytes: &[u8]) {
    put_u32(out, bytes.len() as u32);
    out.extend_from_slice(bytes);
    out.extend_from_slice(&[0; 3][..(4 - bytes.len() % 4) % 4]);
}

fn put_optional<A>(out: &mut Vec<u8>, part: &Option<A>, put: impl Fn(&mut Vec<u8>, &A)) {
    put_u32(out, u32::from(part.is_some()));
    if let Some(part) = part {
        put(out, part);
    }
}

fn put_fattr(out: &mut Vec<u8>, fattr: &Fattr) {
    put_u32(out, fattr.kind as u32);
    fattr.numbers.iter().for_each(|n| put_u32(out, *n));
    fattr.sizes.iter().for_each(|n| put_u64(out, *n));
    fattr.device.iter().for_each(|n| put_u32(out, *n));
    fattr.place.iter().for_each(|n| put_u64(out, *n));
    for time in &fattr.times {
        put_u32(out, time.sec);
        put_u32(out, time.nsec);
    }
}

fn put_attributes(out: &mut Vec<u8>, attributes: &Option<Fattr>) {
    put_optional(out, attributes, put_fattr);
}

fn put_handle(out: &mut Vec<u8>, handle: &Option<Fh>) {
    put_optional(out, handle, |out, handle| put_opaque(out, handle));
}

fn put_wcc(out: &mut Vec<u8>, after: &Option<Fattr>) {
    put_u32(out, 0);
    put_attributes(out, after);
}

fn put_entry(out: &mut Vec<u8>, entry: &EntryPlus) {
    put_u32(out, 1);
    put_u64(out, entry.fileid);
    put_opaque(out, &entry.name);
    put_u64(out, entry.cookie);
    put_attributes(out, &entry.attributes);
    put_handle(out, &entry.handle);
}

fn write_reply(out: &mut Vec<u8>, reply: &Reply) {
    put_u32(out, 0);
    match reply {
        Reply::Getattr(fattr) => put_fattr(out, fattr),
        Reply::Setattr { after } | Reply::Remove { after } => put_wcc(out, after),
        Reply::Lookup { object, attributes, dir_attributes } => {
            put_opaque(out, object);
            put_attributes(out, attributes);
            put_attributes(out, dir_attributes);
        }
        Reply::Access { attributes, bits } => {
            put_attributes(out, attributes);
            put_u32(out, *bits);
        }
        Reply::Read { attributes, count, eof, bytes } => {
            put_attributes(out, attributes);
            put_u32(out, *count);
            put_u32(out, u32::from(*eof));
            put_opaque(out, bytes);
        }
        Reply::Write { after, count, committed, verifier } => {
            put_wcc(out, after);
            put_u32(out, *count);
            put_u32(out, *committed as u32);
            put_u64(out, *verifier);
        }
        Reply::Create { object, attributes, after } => {
            put_handle(out, object);
            put_attributes(out, attributes);
            put_wcc(out, after);
        }
        Reply::Readdirplus { attributes, verifier, entries, eof } => {
            put_attributes(out, attributes);
            put_u64(out, *verifier);
            entries.iter().for_each(|entry| put_entry(out, entry));
            put_u32(out, 0);
            put_u32(out, u32::from(*eof));
        }
        Reply::Commit { after, verifier } => {
            put_wcc(out, after);
            put_u64(out, *verifier);
        }
    }
}

// ---- measuring

fn hex_bytes(digits: &str) -> Vec<u8> {
    let byte = |at| u8::from_str_radix(&digits[at..at + 2], 16).expect("two digits");
    (0..digits.len()).step_by(2).map(byte).collect()
}

fn main() -> io::Result<()> {
    let times: u64 = std::env::args().nth(1).expect("TIMES").parse().expect("a number");
    let (mut calls, mut replies) = (Vec::new(), Vec::new());
    for line in io::stdin().lock().lines() {
        let line = line?;
        let mut words = line.split(' ');
        let (kind, procedure, digits) = (words.next(), words.next(), words.next());
        let procedure = procedure.expect("a procedure").parse().expect("a number");
        let bytes = hex_bytes(digits.expect("bytes"));
        match kind {
            Some("call") => calls.push((procedure, bytes)),
            _ => replies.push((procedure, bytes)),
        }
    }
    let start = Instant::now();
    let mut read = 0;
    for _ in 0..times {
        for (procedure, bytes) in &calls {
            read += u64::from(black_box(read_call(*procedure, bytes)).is_some());
        }
    }
    let calls_took = start.elapsed().as_micros();
    let start = Instant::now();
    let (mut out, mut written) = (Vec::new(), 0);
    for (procedure, bytes) in &replies {
        let reply = read_reply(*procedure, bytes).expect("a reply");
        for _ in 0..times {
            out.clear();
            write_reply(&mut out, black_box(&reply));
            written += black_box(&out).len();
        }
    }
    println!("{calls_took} {read} {} {written}", start.elapsed().as_micros());
    Ok(())
}
