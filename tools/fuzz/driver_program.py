"""The two programs of fuzz_driver.py. Their cases stand on standard input one behind another, and each is answered as it comes."""

READING = r'''/// The most bytes of a part of a case.
const MOST: usize = 268_435_456;

/// The next number of a case.
fn number(rt: &HostRuntime) -> io::Result<u32> {
    let mut bytes = [0; 4];
    rt.stdin().read_exact(&mut bytes)?;
    Ok(u32::from_be_bytes(bytes))
}

/// The next part of a case, of this length.
fn part(rt: &HostRuntime, length: u32) -> io::Result<Vec<u8>> {
    let mut bytes = Vec::new(rt.alloc());
    if length as usize <= MOST {
        bytes.resize(length as usize, 0)?;
    }
    rt.stdin().read_exact(&mut bytes)?;
    Ok(bytes)
}
'''

MAIN = r'''
fn main(rt: HostRuntime) -> io::Result<()> {
    for _ in 0..u32::MAX {
        match number(&rt) {
            Ok(length) => answer_one(&rt, length)?,
            Err(_) => return Ok(()),
        }
    }
    Ok(())
}
'''

LOADS = (
    r'''//! Loads pictures. A case is a number of four bytes, and as many bytes, which are loaded into nothing.
//! The answer is 0 and the number of nodes, 1 and the place of the fault, or 2 where there is no memory.
#![tactic(auto)]

ghost use Rattle.std.specs.Prelude.{◌≡◌, ◌<◌};

use kishu_heap::Heap;
use kishu_loading::{LoadFault, load};
use kishu_names::Names;
use std::alloc::Global;
use std::io::{self, Read, Write};

'''
    + READING
    + r'''
/// What a load comes to.
fn load_told(alloc: Global, bytes: &[u8]) -> (u8, u64) {
    let mut heap = Heap::new(alloc);
    let mut names = Names::new(alloc);
    if bytes.len() > MOST {
        return (2, 0);
    }
    match load(alloc, bytes, &mut heap, &mut names) {
        Ok(()) => (0, u64::from(heap.len())),
        Err(LoadFault::Picture { at }) => (1, at),
        Err(LoadFault::NoMemory) => (2, 0),
    }
}

/// Loads a picture into nothing.
fn loaded(alloc: Global, bytes: &[u8]) -> io::Result<Vec<u8>> {
    let (kind, told) = load_told(alloc, bytes);
    let mut answer = Vec::new(alloc);
    answer.push(kind)?;
    answer.extend_from_slice(&told.to_be_bytes())?;
    Ok(answer)
}

/// Answers the next case, whose picture has this length.
fn answer_one(rt: &HostRuntime, length: u32) -> io::Result<()> {
    let bytes = part(rt, length)?;
    let answer = loaded(rt.alloc(), &bytes)?;
    rt.stdout().write_all(&answer)
}
'''
    + MAIN
)

RUNS = (
    r'''//! Runs Kishu in memory. A case is three numbers of four bytes, and as many bytes each: words with a
//! line feed between each two, an input, and a file. The answer is the status, and behind a length of
//! eight bytes each its text, what was put out, and the file.
#![tactic(auto)]

ghost use Rattle.std.specs.Prelude.{◌≡◌, ◌<◌};

use kishu_host::{MemHost, MemSource};
use kishu_model::Steps;
use kishu_serve::{Status, kishu};
use std::alloc::Global;
use std::io::{self, Read, Write};
use std::marker::Brand;
use std::sync::ledger::{Blank, Ledger};

/// The bytes that a run has for what it writes beyond the file.
const ROOM: u64 = 1_048_576;
'''
    + READING
    + r'''
/// Puts bytes behind an answer, and their number before them.
fn tell(answer: &mut Vec<u8>, bytes: &[u8]) -> io::Result<()> {
    answer.extend_from_slice(&(bytes.len() as u64).to_be_bytes())?;
    answer.extend_from_slice(bytes)?;
    Ok(())
}

/// The words of a case.
fn words_of(alloc: Global, bytes: Vec<u8>) -> io::Result<Vec<String>> {
    let mut words = Vec::new(alloc);
    if let Ok(text) = String::from_utf8(bytes) {
        for word in text.as_str().split('\n') {
            words.push(String::from_str(alloc, word)?)?;
        }
    }
    Ok(words)
}

/// Runs the words over an input and a host, where nobody counts the steps.
fn run(alloc: Global, words: &[String], source: &mut MemSource, host: &mut MemHost) -> Status {
    run_counted::<Brand>(alloc, words, source, host, Blank::new(1))
}

/// Runs the words over an input and a host. The counter is made from a blank page.
fn run_counted<L: Ledger>(
    alloc: Global,
    words: &[String],
    source: &mut MemSource,
    host: &mut MemHost,
    blank: Blank,
) -> Status
    requires name { blank.name ≡ L.name }
    requires parts { blank.parts ≡ L.parts }
    requires some { 0 < L.parts }
{
    let mut steps = Steps::<L>::new(blank);
    kishu(alloc, words, source, host, &mut steps)
}

/// Runs words over an input and a file.
fn ran(alloc: Global, words: &[String], input: Vec<u8>, file: Vec<u8>) -> io::Result<Vec<u8>> {
    let room = file.len() as u64 + ROOM;
    let mut host = MemHost::new(alloc, file, room, Vec::new(alloc), None)?;
    let mut source = MemSource::new(alloc, input, Vec::new(alloc))?;
    let status = run(alloc, words, &mut source, &mut host);
    let text = status.text(alloc)?;
    let mut answer = Vec::new(alloc);
    answer.push(status.code())?;
    tell(&mut answer, text.as_bytes())?;
    tell(&mut answer, host.out())?;
    tell(&mut answer, host.file())?;
    Ok(answer)
}

/// Answers the next case, whose words have this length.
fn answer_one(rt: &HostRuntime, length: u32) -> io::Result<()> {
    let alloc = rt.alloc();
    let (input, file) = (number(rt)?, number(rt)?);
    let words = words_of(alloc, part(rt, length)?)?;
    let input = part(rt, input)?;
    let file = part(rt, file)?;
    let answer = ran(alloc, &words, input, file)?;
    rt.stdout().write_all(&answer)
}
'''
    + MAIN
)

# What the counter is made from.
COUNTER = """use Rattle.run_driver.proofs.run.Given as goal

abbrev pub ghosts-run_counted : goal.ghosts-run_counted
ghosts-run_counted a = record { name = a.blank.name; parts = a.blank.parts }
"""
