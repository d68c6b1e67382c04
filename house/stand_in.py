#!/usr/bin/env python3
"""A stand-in of a program, built of its sources without any proof, and how many instructions a request of `serve` takes
in it: what a change gives is known before it is proved.

    python3 house/stand_in.py [--root CLONE] [--with COMMAND ..] [--whole [--crate NAME]] [--cut FUNCTION ..]
                              [--inline FUNCTION ..] [--apart FUNCTION ..] [--kind KIND ..] [--top N] [--still]
                              [--against PROGRAM] [--module FOLDER] [--to FILE]

Prints the tables of bench/instructions.py, of the stand-in and of the program beside it. It is for counting, never for
serving or for testing: nothing in it is proved, and where a proof would have been refused it does anything. Two minutes
of one processor, of which a minute is the front end.

It is built by unproved.py, and the attributes that the front end leaves out (`#[inline(always)]`, `#[inline(never)]`,
`#[cold]`) are put back from the sources, of the repository and of the kit. Of one small program that was built both
ways, all attributes were the same, and the code but for stores that nobody reads. Of `serve` the stand-in was 0 to 4 %
below the proved program, a sum of 100 reads 0.1 % (29 November 2026).

--root      the clone whose crates are built; without it this one
--with      the commands that the stand-in has: serve (without the option), relay, files (`check`, `replay`, `load` and
            the others over files). Fewer commands take less time to build; but a function that then has one caller left
            may go into it, as it does not in the whole program
--whole     the program's own main with all its commands, ads or what --crate names: 150 MB of module, and three times
            the time
--cut       functions whose bodies are cut off, by the beginning of their names, as `keep_play::` or `sqlite`
--inline    functions, by the beginning of their names, that are inlined always, as if their source said so; --apart
            those that never are. With --module such a trial takes no front end
--kind      the kinds of request that are run, as "state" or "mixture"; without it all
--still     no tick comes, as in bench/instructions.py: the way to compare two trials on a busy machine
--against   a program that was built by `rt`: its table comes too
--module    a folder: the module is left in it as module.bc, and where it is there already it is taken, and no source is
            read but for attributes
--to        where the stand-in's program is left
"""
import argparse
import os
import pathlib
import re
import sys
import tempfile

sys.dont_write_bytecode = True
sys.path[1:1] = [f"{sys.path[0]}/../{room}" for room in ("bench", "model", "tools", "tries")]
import instructions  # noqa: E402
from unproved import KIT, OPTIMIZED, NotBuilt, compile_texts, make_module, sources, take_out  # noqa: E402

HERE = os.path.dirname(os.path.dirname(os.path.abspath(__file__)))
SERVES = "(threads, alloc, description, listen, *events, &mut files, &mut wire, &mut out, signals)"
ARMS = {
    "serve": f"Task::Serve {{ description, listen, events }} => serve{SERVES},",
    "relay": f"Task::RelayServe {{ description, listen, events }} => serve_relay{SERVES},",
    "files": "Task::OfFiles(of_files) => print_file_task(threads, alloc, of_files, &mut files, &mut out, signals),",
}
CALLS = {"serve": "serve", "relay": "serve_relay", "files": "print_file_task"}
LIBRARIES = ["ads_base", "ads_edge", "ads_outside", "signals", "run_tasks", "plant_commands"]
MAIN = """//! A stand-in's program: some commands alone.

use ads_base::NoMemory;
use ads_edge::{RealFiles, RealSink, RealWire};
use plant_commands::{CALLS};
use run_tasks::{Status, Task, task_asked};
use signals::{Ramp, Signal, Square, Table8};
use std::env;
use std::process::ExitCode;
use std::thread::Threads;

fn main(rt: HostRuntime) -> ExitCode {
    match run(&rt, &rt) {
        Ok(status) => ExitCode::from(status.number()),
        Err(NoMemory) => ExitCode::from(99),
    }
}

fn run<T: Threads + Sync>(rt: &HostRuntime, threads: &T) -> Result<Status, NoMemory> {
    let alloc = rt.alloc();
    let words: Vec<String> = match env::args(rt) {
        Ok(args) => args.collect(alloc).map_err(|_| NoMemory)?,
        Err(_) => {
            return Ok(Status::Usage);
        }
    };
    let mut files = RealFiles::new(alloc, *rt)?;
    let mut wire = RealWire::new(alloc, *rt)?;
    let mut out = RealSink::new(rt);
    let ramp: Ramp = Ramp::new(1000);
    let square: Square = Square::new(0, 1, 10);
    let table: Table8 = Table8::new(alloc, &[3, 1, 4, 1, 5, 9, 2, 6])?;
    let mut signals: Vec<Box<dyn Signal>> = Vec::new(alloc);
    signals.push(Box::new(alloc, ramp)?)?;
    signals.push(Box::new(alloc, square)?)?;
    signals.push(Box::new(alloc, table)?)?;
    match task_asked(alloc, &words.as_slice()[1..])? {
        Some(task) => Ok(match &task {
            ARMS
            _ => Status::Usage,
        }),
        None => Ok(Status::Usage),
    }
}
"""


def sources_of(root, room, crate, commands):
    """The words by which the front end finds the program's sources: its own main, or one of these commands."""
    if not commands:
        return sources(root, crate)
    text, main = MAIN.replace("CALLS", ", ".join(CALLS[it] for it in commands)), f"{room}/main.rt"
    pathlib.Path(main).write_text(text.replace("ARMS", "\n            ".join(ARMS[it] for it in commands)),
                                  encoding="utf-8")
    return sources(root, crate, main, LIBRARIES)


class Attributes:
    """What the sources say of functions: #[inline(always)], #[inline(never)], #[cold]."""

    WORDS = {"inline(always)": "alwaysinline", "inline(never)": "noinline", "cold": "cold", "inline": ""}
    ATTRIBUTE = re.compile(r"\s*#\[((?:inline|cold)(?:\(\w+\))?)\]")
    BLOCK = re.compile(r"(?:unsafe )?impl\b(.*?)(?:\{|$)")
    TRAIT = re.compile(r"(?:pub(?:\([^)]*\))? )?(?:unsafe )?trait (\w+)")
    FUNCTION = re.compile(r"\s*(?:pub(?:\([^)]*\))? )?(?:final )?(?:const )?(?:unsafe )?(?:extern \"C\" )?fn (\w+)")

    def __init__(self, root):
        # of a crate and a function's name: the rows (its module, the type and the trait of its block, its attributes)
        self.rows = {}
        for top in (f"{KIT}/rattle", f"{root}/crates"):
            for crate in os.listdir(top):
                for path in pathlib.Path(f"{top}/{crate}/src").rglob("*.rt"):
                    self.read(crate, path.relative_to(f"{top}/{crate}/src").with_suffix(""),
                              path.read_text(encoding="utf-8"))

    @staticmethod
    def named(type_, parameters):
        """A type as the name of a block has it: `RefStr` of `&str`, `Ref` of `&T`."""
        while re.search(r"<[^<>]*>", type_):
            type_ = re.sub(r"<[^<>]*>", "", type_)
        last = (re.findall(r"\w+", type_) or [""])[-1]
        return "Ref" * type_.count("&") + ("" if last in parameters else last[:1].upper() + last[1:])

    def block(self, head):
        """The type and the trait of a block."""
        head = re.split(r"\bwhere\b", head.replace("->", ""))[0].strip()
        depth, at = 0, 0
        for at, letter in enumerate(head if head.startswith("<") else ""):
            depth += (letter == "<") - (letter == ">")
            if not depth:
                break
        parameters = set(re.findall(r"(?:^<|,)\s*(\w+)\s*(?=[:,>])", head[:at + 1])) if at else set()
        parts = re.split(r"\bfor\b", head[at + 1:] if at else head)
        return (self.named(parts[-1], parameters), self.named(parts[0], set()) if len(parts) > 1 else "")

    def read(self, crate, path, text):
        parts = [it for it in path.parts if it not in ("lib", "main", "mod")]
        module, block, said = "::".join([crate, *parts]), ("", ""), []
        for line in text.split("\n"):
            if found := self.ATTRIBUTE.match(line):
                said.append(self.WORDS[found[1]])
                continue
            if found := self.BLOCK.match(line):
                block = self.block(found[1])
            elif found := self.TRAIT.match(line):
                block = ("", found[1])
            elif line.startswith("}"):
                block = ("", "")
            if found := self.FUNCTION.match(line):
                words = {"noinline", "cold"} if "cold" in said else set(said) - {""}
                self.rows.setdefault((crate, found[1]), []).append((module, block, " ".join(sorted(words))))
            if not line.lstrip().startswith(("//", "#[")):
                said = []

    def of(self, name):
        """The attributes of a function of the module. A method has the name of its type's module, and stands there,
        below it or elsewhere in the crate."""
        path = name.split("::<")[0].split("::")
        rows, module, owner = self.rows.get((path[0], path[-1]),
                                            []), "::".join(path[:-1]), path[-2] if len(path) > 2 else ""
        above = "::".join(path[:-2])
        hits = [it for place, block, it in rows if place == module and block == ("", "")]
        ways = (lambda of, by: of + by, lambda of, by: owner if by and owner.endswith(by) else "")
        for way in ways if owner and not hits else ():
            named = [(place, it) for place, (of, by), it in rows if way(of, by) == owner]
            hits = [it for place, it in named if place == above] or [
                it for place, it in named if place.startswith(above)] or [it for _, it in named]
            if hits:
                break
        return hits[0] if hits else ""


def table(name, program, kinds, top, still):
    """The table of bench/instructions.py, of these kinds."""
    print(f"{name}: {program}\n")
    kinds = {it: instructions.KINDS[it] for it in kinds or instructions.KINDS}
    instructions.print_table(program, kinds, top, [], still)
    print(flush=True)


def main():
    it = argparse.ArgumentParser(description=__doc__, formatter_class=argparse.RawDescriptionHelpFormatter)
    it.add_argument("--root", default=HERE, type=os.path.abspath)
    it.add_argument("--with", dest="commands", nargs="+", choices=ARMS, default=["serve"])
    for option in ("--whole", "--still"):
        it.add_argument(option, action="store_true")
    it.add_argument("--crate", default="ads")
    for option in ("--cut", "--inline", "--apart"):
        it.add_argument(option, nargs="+", default=[])
    it.add_argument("--against", type=os.path.abspath)
    it.add_argument("--kind", nargs="+", choices=instructions.KINDS, default=[])
    it.add_argument("--top", type=int, default=0)
    it.add_argument("--to", type=os.path.abspath)
    it.add_argument("--module", type=os.path.abspath)
    given = it.parse_args()
    if given.crate != "ads" and not given.whole:
        it.error("--crate goes with --whole")
    with tempfile.TemporaryDirectory(prefix="stand-in-") as room:
        kept = given.module or room
        os.makedirs(kept, exist_ok=True)
        module, program = f"{kept}/module.bc", given.to or f"{room}/{given.crate}"
        if not os.path.isfile(module):
            make_module(room, sources_of(given.root, room, given.crate, [] if given.whole else given.commands), module)
        attributes, others = Attributes(given.root), [(given.inline, "alwaysinline"), (given.apart, "noinline")]

        def said_of(name):
            return next((word for fronts, word in others if name.startswith(tuple(fronts))),
                        None) or attributes.of(name)

        compile_texts(take_out(module, room, said_of, given.cut), program, OPTIMIZED)
        table("the stand-in", program, given.kind, given.top, given.still)
        if given.against:
            table("the program", given.against, given.kind, given.top, given.still)


if __name__ == "__main__":
    try:
        main()
    except NotBuilt as why:
        sys.exit(str(why))
