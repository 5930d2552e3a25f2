#!/usr/bin/env python3
"""Times the heap and the names: a million pushes, a million entries of a dict, and 100,000 names.

Usage: tools/time/time_heap.py

The program that is timed is made, proved and built in a folder of its own, over copies of the
crates that it stands on, as timing.py does it. Each row is a run of its own, so that its memory can
be told: the time is what the calls take, and the memory is the most that the run had.
"""
import os
import resource
import subprocess
import tempfile

from timing import built, copy_crates

CRATES = ("kishu_meaning", "kishu_heap", "kishu_names")
PROGRAM = r'''//! Fills a heap or a namespace, and prints how long that takes.
#![tactic(auto)]

use indexmap::IndexMap;
use kishu_heap::{Heap, Node};
use kishu_meaning::{Key, NodeId, Value};
use kishu_names::{Names, is_name};
use std::alloc::{AllocError, Global};
use std::io;
use std::rc::RcStr;
use std::rt::Clock;
use std::time::Instant;

fn pushes(heap: &mut Heap, id: NodeId, times: u32) -> Result<(), AllocError> {
    for i in 0..times {
        if id.0 < heap.len() {
            heap.push(id, Value::Int(i128::from(i)))?;
        }
    }
    Ok(())
}

fn entries(heap: &mut Heap, id: NodeId, times: u32) -> Result<(), AllocError> {
    for i in 0..times {
        if id.0 < heap.len() {
            heap.insert(id, Key::Int(i128::from(i)), Value::None)?;
        }
    }
    Ok(())
}

fn texts(alloc: Global, heap: &mut Heap, id: NodeId, times: u32) -> Result<(), AllocError> {
    for i in 0..times {
        let text = RcStr::from_string(format!(in alloc; "key {i}")?)?;
        if id.0 < heap.len() {
            heap.insert(id, Key::Text(text), Value::None)?;
        }
    }
    Ok(())
}

fn names(alloc: Global, names: &mut Names, times: u32) -> Result<u32, AllocError> {
    let mut bound: u32 = 0;
    for i in 0..times {
        // The names come in no order.
        let number = u64::from(i) * 7_919 % u64::from(times.max(1));
        let name = format!(in alloc; "name_{number}")?;
        if is_name(name.as_str()) {
            names.bind(name.as_str(), Value::Int(i128::from(i)))?;
        }
        if names.get(name.as_str())?.is_some() {
            bound = bound.saturating_add(1);
        }
    }
    Ok(bound)
}

fn fill(alloc: Global, which: &str) -> Result<u32, AllocError> {
    let mut heap = Heap::new(alloc);
    if which == "pushes" {
        let id = heap.make(Node::List(Vec::new(alloc)))?;
        pushes(&mut heap, id, 1_000_000)?;
    }
    if which == "entries" {
        let id = heap.make(Node::Dict(IndexMap::new(alloc)))?;
        entries(&mut heap, id, 1_000_000)?;
    }
    if which == "texts" {
        let id = heap.make(Node::Dict(IndexMap::new(alloc)))?;
        texts(alloc, &mut heap, id, 1_000_000)?;
    }
    if which == "names" {
        let mut all = Names::new(alloc);
        return names(alloc, &mut all, 100_000);
    }
    Ok(heap.len())
}

fn main(rt: HostRuntime) -> io::Result<()> {
    let alloc = rt.alloc();
    let start = Instant::now(&rt)?;
    fill(alloc, "WHICH")?;
    let micros = start.elapsed(&rt)?.as_micros();
    println!(rt; "{micros}")
}
'''


def most_memory():
    return resource.getrusage(resource.RUSAGE_CHILDREN).ru_maxrss


def run(program):
    """The time that the program tells, and the most memory that it had."""
    child = os.fork()
    if child == 0:
        out = subprocess.run([program], capture_output=True, check=True, text=True).stdout
        print(f"{int(out) / 1000:>9.1f} ms  {most_memory() / 1024:>7.1f} MiB", flush=True)
        os._exit(0)
    os.waitpid(child, 0)


def main():
    with tempfile.TemporaryDirectory() as folder:
        copy_crates(folder, CRATES)
        for which in ("pushes", "entries", "texts", "names"):
            program = built(folder, "time_" + which, (*CRATES, "indexmap"), PROGRAM.replace("WHICH", which))
            print(f"{which:<8}", end="", flush=True)
            run(program)


if __name__ == "__main__":
    main()
