//! `journal append SHELF SIZE BEFORE COUNT` and `journal open SHELF SIZE COUNT`: a journal's device calls in plain Rust.
//!
//! For each record it writes what stands behind its gate (a length, SIZE bytes and the next gate), syncs, opens the gate
//! by writing one byte, and syncs. `append` does so BEFORE times and then COUNT times more, and prints how many
//! microseconds these took. `open` does so COUNT times, reads the disk by one read, makes a list of the payloads, and
//! prints how many microseconds these two took. SHELF is `memory`, where a sync does nothing, or a folder in which the
//! disk is a file.
use std::fs::{File, OpenOptions};
use std::hint::black_box;
use std::os::unix::fs::FileExt;
use std::time::Instant;
use std::{env, io};

enum Disk {
    Memory(Vec<u8>),
    File(File),
}

impl Disk {
    fn write_at(&mut self, at: u64, bytes: &[u8]) -> io::Result<()> {
        match self {
            Disk::Memory(contents) => {
                let at = at as usize;
                let end = at + bytes.len();
                if contents.len() < end {
                    contents.resize(end, 0);
                }
                contents[at..end].copy_from_slice(bytes);
                Ok(())
            }
            Disk::File(file) => file.write_all_at(bytes, at),
        }
    }

    fn read(&self) -> io::Result<Vec<u8>> {
        match self {
            Disk::Memory(contents) => Ok(contents.clone()),
            Disk::File(file) => {
                let mut bytes = vec![0; file.metadata()?.len() as usize];
                file.read_exact_at(&mut bytes, 0)?;
                Ok(bytes)
            }
        }
    }

    fn sync(&mut self) -> io::Result<()> {
        match self {
            Disk::Memory(contents) => {
                black_box(contents);
                Ok(())
            }
            Disk::File(file) => file.sync_all(),
        }
    }
}

fn append(disk: &mut Disk, end: u64, payload: &[u8]) -> io::Result<u64> {
    let mut record = Vec::with_capacity(payload.len() + 5);
    record.extend_from_slice(&(payload.len() as u32).to_be_bytes());
    record.extend_from_slice(payload);
    record.push(0);
    disk.write_at(end + 1, &record)?;
    disk.sync()?;
    disk.write_at(end, &[1])?;
    disk.sync()?;
    Ok(end + record.len() as u64)
}

/// The payloads from the first gate on.
fn payloads(bytes: &[u8]) -> Vec<Vec<u8>> {
    let mut payloads = Vec::new();
    let mut rest = bytes;
    while let [1, a, b, c, d, behind @ ..] = rest {
        let (payload, next) = behind.split_at(u32::from_be_bytes([*a, *b, *c, *d]) as usize);
        payloads.push(payload.to_vec());
        rest = next;
    }
    payloads
}

/// Makes the disk of a shelf.
fn disk_of(shelf: &str) -> io::Result<Disk> {
    if shelf == "memory" {
        return Ok(Disk::Memory(Vec::new()));
    }
    let mut options = OpenOptions::new();
    options.read(true).write(true).create(true);
    Ok(Disk::File(options.open(format!("{shelf}/disk"))?))
}

fn main() -> io::Result<()> {
    let words: Vec<String> = env::args().skip(1).collect();
    let words: Vec<&str> = words.iter().map(String::as_str).collect();
    let number = |word: &str| word.parse::<u64>().expect("a number");
    let (shelf, size, before, count) = match words[..] {
        ["append", shelf, size, before, count] => (shelf, size, number(before), number(count)),
        ["open", shelf, size, count] => (shelf, size, number(count), 0),
        _ => panic!("wants append SHELF SIZE BEFORE COUNT, or open SHELF SIZE COUNT"),
    };
    let mut disk = disk_of(shelf)?;
    let payload = vec![90; number(size) as usize];
    let mut end = 0;
    for _ in 0..before {
        end = append(&mut disk, end, &payload)?;
    }
    let start = Instant::now();
    if words[0] == "open" {
        let found = payloads(&disk.read()?);
        assert_eq!(found.len() as u64, before);
        println!("{}", start.elapsed().as_micros());
        return Ok(());
    }
    for _ in 0..count {
        end = append(&mut disk, end, &payload)?;
    }
    println!("{}", start.elapsed().as_micros());
    Ok(())
}
