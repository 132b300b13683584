"""What finding the facts of a graph by several workers costs, which is a part of bench/workers.

A line has the kind of program, the workers, the seconds by the clock in which the facts are found once in a trial program (made of the
crates, compiled and not proved; it checks each access to memory, so that everything takes a hundred times as long), and those of a whole
call of the built program, a slice of the last statement. Where the facts are nearly all of a call, no trial program is asked. All seconds
are the least of five calls, which are made by turns, so that what else the machine does meets all numbers of workers alike.
"""
import os
import subprocess
import time

from limits import SLICER
from texts import circle, web
from tried import CHECKS, build

OVER = ["c_reader", "c_tree", "bit_rows", "dep_model", "mod_ref", "vertex_layout", "program_graph", "summary_edges", "crew"]
# Each kind with how often the trial program finds its facts in a call.
KINDS = {"web": (web, 20), "circle": (circle, 0)}
SEVERAL = [1, 2, 4]

PROGRAM = r"""//! What the facts of a program's graph cost: the pipe or file, the workers and how often they are found.
#![tactic(auto)]

use anyhow::Context;
use bit_rows::Rows;
use c_tree::Program;
use crew::OpenGate;
use dep_model::{Graph, Locations, PointsTo};
use std::alloc::Global;
use std::{env, fs};

fn text_of(alloc: Global, bytes: &[u8]) -> anyhow::Result<Program> {
    c_reader::read_program(alloc, bytes).map_err(|_| anyhow::Error::msg("not read"))
}

fn graph_of(alloc: Global, p: &Program) -> anyhow::Result<Graph> {
    let list = Locations::of(alloc, p).map_err(|_| anyhow::Error::msg("locations"))?;
    let points = PointsTo { rows: Rows::new(alloc, list.len(), list.len())? };
    let effects = mod_ref::find(alloc, p, &list, &points)?;
    let skeleton = vertex_layout::lay_out(alloc, p, &list, &points, &effects).map_err(|_| anyhow::Error::msg("a limit"))?;
    let graph = program_graph::find(alloc, p, skeleton)?;
    Ok(graph)
}

fn main(rt: HostRuntime) -> anyhow::Result<()> {
    let mut words = env::args(&rt)?.into_iter().skip(1);
    let name = words.next().context("no file")?;
    let bytes = fs::read(&rt, name.as_str())?;
    let workers = words.next().context("no workers")?;
    let workers = workers.as_str().parse::<u32>()?;
    let turns = words.next().context("no turns")?;
    let turns = turns.as_str().parse::<u64>()?;
    let p = text_of(rt.alloc(), bytes.as_slice())?;
    let graph = graph_of(rt.alloc(), &p)?;
    println!(rt; "{} functions, {} vertices, {} fact words", p.functions.len(), graph.vertices.len(), graph.fact_words)?;
    for _ in 0..turns {
        summary_edges::find(&rt, rt.alloc(), &graph, workers, &OpenGate)?;
    }
    Ok(())
}
"""


def program_in(folder):
    """The trial program, in an empty folder."""
    return build("finding", OVER, PROGRAM, folder)


def seconds_of(words):
    begun = time.perf_counter()
    done = subprocess.run(words, check=True, stdout=subprocess.PIPE, env={**os.environ, "ASAN_OPTIONS": CHECKS})
    return time.perf_counter() - begun, done.stdout.decode()


def least(calls):
    """The least seconds of each call, of five that are made by turns."""
    found = [[] for _ in calls]
    for _ in range(5):
        for tries, words in zip(found, calls):
            tries.append(seconds_of(words)[0])
    return [min(tries) for tries in found]


def whole_calls(name, text):
    """The least seconds of a slice of the last statement, for each number of workers; none where there is no built program."""
    if not os.access(SLICER, os.X_OK):
        return [None for _ in SEVERAL]
    line = max(number for number, words in enumerate(text.split("\n"), 1) if words.endswith(";"))
    return least([[SLICER, "slice", name, str(line), "--workers", str(workers)] for workers in SEVERAL])


def trials(program, name, turns):
    """The least seconds in which the trial program finds the facts once, for each number of workers; none where it doesn't."""
    if not turns:
        return [None for _ in SEVERAL]
    before, *found = least([[program, name, "1", "0"]] + [[program, name, str(workers), str(turns)] for workers in SEVERAL])
    return [max(seconds - before, 0) / turns for seconds in found]


def told(seconds):
    return f"{'-':>9}" if seconds is None else f"{seconds:9.4f}"


def try_kind(program, kind, folder):
    make, turns = KINDS[kind]
    name, text = os.path.join(folder, "input.c"), make()
    with open(name, "w") as file:
        file.write(text)
    print(f"{kind}: {seconds_of([program, name, '1', '0'])[1].strip()}", flush=True)
    for workers, facts, call in zip(SEVERAL, trials(program, name, turns), whole_calls(name, text)):
        print(f"{kind:6} {workers:8} {told(facts)} {told(call)}", flush=True)
