"""A program over `kishu_notebook` that isn't part of Kishu: it reads a notebook, sets results in its code cells, and writes it.

It is made, proved and built by `rt` in a folder of its own, over copies of the crates that it stands on. A notebook that is refused
is told by the reason on standard output, and status 4.
"""
import pathlib
import sys

sys.path.append(str(pathlib.Path(__file__).resolve().parents[1] / "time"))

from timing import built, copy_crates  # noqa: E402

REFUSED = 4
EMPTY = b'{"cells":[],"metadata":{},"nbformat":4,"nbformat_minor":5}'
PROGRAM = r'''//! Reads the notebook on standard input, sets results in its code cells, and writes it on standard
//! output. The word has a letter for each code cell, and begins again where there are more cells; what
//! a letter sets has the cell's own source in it.
#![tactic(auto)]

ghost use Rattle.std.specs.Prelude.{◌≡◌, ◌<◌, length};
ghost use Rattle.kishu_notebook.specs.Views.{data_of};
ghost use Rattle.kishu_model.specs.notebooks.Notebook.{sources_of};

use kishu_model::{CellResult, Outcome, Output};
use kishu_notebook::{Notebook, NotebookFault, NotebookKey, NotebookRefusal};
use std::alloc::{AllocError, Global};
use std::env;
use std::io::{self, Read, Write};
use std::process::ExitCode;
use std::rc::RcStr;

/// Why no notebook was written.
enum Fault {
    Notebook(NotebookFault),
    Io,
}

impl From<io::Error> for Fault {
    fn from(_error: io::Error) -> Fault {
        Fault::Io
    }
}

impl From<AllocError> for Fault {
    fn from(_error: AllocError) -> Fault {
        Fault::Notebook(NotebookFault::NoMemory)
    }
}

impl From<NotebookFault> for Fault {
    fn from(fault: NotebookFault) -> Fault {
        Fault::Notebook(fault)
    }
}

/// The name of a key.
fn named(key: NotebookKey) -> &'static str {
    match key {
        NotebookKey::Format => "nbformat",
        NotebookKey::Minor => "nbformat_minor",
        NotebookKey::Metadata => "metadata",
        NotebookKey::Cells => "cells",
    }
}

/// Tells a fault on standard output. The status that the program ends with.
fn tell(rt: &HostRuntime, fault: Fault) -> u8 {
    let told = match fault {
        Fault::Io => return 6,
        Fault::Notebook(NotebookFault::NoMemory) => return 8,
        Fault::Notebook(NotebookFault::Refused(refusal)) => match refusal {
            NotebookRefusal::NotJson => println!(rt; "not JSON"),
            NotebookRefusal::NotNotebook { key } => println!(rt; "key {}", named(key)),
            NotebookRefusal::Version { minor } => println!(rt; "minor {minor}"),
            NotebookRefusal::BadCell { index } => println!(rt; "cell {index}"),
            NotebookRefusal::RepeatedId { index } => println!(rt; "repeated id at cell {index}"),
            NotebookRefusal::NotWhole => println!(rt; "a number is not whole"),
        },
    };
    match told {
        Ok(()) => 4,
        Err(_) => 7,
    }
}

/// The word of the command line. Without one nothing is set.
fn plan_of(rt: &HostRuntime) -> io::Result<String> {
    match env::args(rt)?.nth(1) {
        Some(plan) => Ok(plan),
        None => Ok(String::new(rt.alloc())),
    }
}

fn letter_at(plan: &[u8], at: usize) -> u8 {
    match at.checked_rem(plan.len()) {
        Some(place) if place < plan.len() => plan[place],
        _ => b'-',
    }
}

/// What a run gave that a letter stands for, where it stands for one.
fn run_of(alloc: Global, letter: u8, source: &RcStr) -> Result<Option<CellResult>, AllocError> {
    let text = source.clone()?;
    let (outcome, outputs) = match letter {
        // nothing, what was printed, what was shown, both, and an error
        b'n' => (Outcome::Done, Vec::new(alloc)),
        b'p' => (Outcome::Done, vec![in alloc; Output::Stream { text }]?),
        b's' => (Outcome::Done, vec![in alloc; Output::Shown { text }]?),
        b'b' => {
            let printed = Output::Stream {
                text: source.clone()?,
            };
            (
                Outcome::Done,
                vec![in alloc; printed, Output::Shown { text }]?,
            )
        }
        b'e' => {
            let ename = RcStr::from_str(alloc, "ValueError")?;
            (
                Outcome::Raised,
                vec![in alloc;
                    Output::Fault {
                        ename,
                        evalue: text
                    },
                ]?,
            )
        }
        _ => return Ok(None),
    };
    Ok(Some(CellResult { outcome, outputs }))
}

/// Sets what a letter says in a code cell.
fn set_one(
    alloc: Global,
    notebook: &mut Notebook,
    at: u32,
    letter: u8,
    source: &RcStr,
) -> Result<(), AllocError>
    requires { at < length (sources_of (data_of notebook.old)) }
    ensures { sources_of (data_of notebook.new) ≡ sources_of (data_of notebook.old) }
{
    if letter == b'r' {
        return notebook.set_refused(at, "StoreFull");
    }
    match run_of(alloc, letter, source)? {
        Some(ran) => notebook.set_result(at, &ran, u64::from(at) + 1),
        None => Ok(()),
    }
}

/// Sets in each code cell what its letter says.
fn set_all(alloc: Global, notebook: &mut Notebook, plan: &[u8]) -> Result<(), AllocError> {
    let sources = notebook.sources()?;
    for at in 0..sources.len() {
        let Ok(number) = u32::try_from(at) else {
            return Ok(());
        };
        set_one(alloc, notebook, number, letter_at(plan, at), &sources[at])?;
    }
    Ok(())
}

/// The notebook on standard input, with what the plan sets in it.
fn set_notebook(rt: &HostRuntime, plan: &[u8]) -> Result<Notebook, Fault> {
    let mut bytes = Vec::new(rt.alloc());
    rt.stdin().read_to_end(&mut bytes)?;
    if bytes.len() >= 1 << 26 {
        return Err(Fault::Io);
    }
    let mut notebook = Notebook::read(rt.alloc(), &bytes)?;
    set_all(rt.alloc(), &mut notebook, plan)?;
    Ok(notebook)
}

fn run(rt: &HostRuntime) -> Result<(), Fault> {
    let plan = plan_of(rt)?;
    let notebook = set_notebook(rt, plan.as_bytes())?;
    rt.stdout().write_all(&notebook.write()?)?;
    Ok(())
}

fn main(rt: HostRuntime) -> ExitCode {
    match run(&rt) {
        Ok(()) => ExitCode::SUCCESS,
        Err(fault) => ExitCode::from(tell(&rt, fault)),
    }
}
'''
PROOFS = {
    "proofs/set_all/Invariants.antt": '''use Rattle.std.proofs.Common.{◌≡◌, length}
use Rattle.kishu_notebook.specs.Views.{data_of}
use Rattle.kishu_model.specs.notebooks.Notebook.{sources_of}
use Rattle.notebook_driver.proofs.set_all.Given as goal

abbrev pub invariant-loop-at : goal.invariant-loop-at
invariant-loop-at l = length (sources_of (data_of l.notebook)) ≡ length l.sources.items
''',
}


def driver(folder):
    """The built program, in that folder."""
    copy_crates(folder, ["kishu_notebook"])
    return built(folder, "notebook_driver", ["kishu_model", "kishu_notebook"], PROGRAM, PROOFS, EMPTY)
