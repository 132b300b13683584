"""A trial slicer, made of the engine's parts.

It is compiled and not proved, by the compiler's trial command. Its words are a file, then graph, or members or forward and a line of the
file, or chop and two lines, or slice and lines.
"""
import os
import sys

sys.path.insert(0, os.path.join(os.path.dirname(os.path.realpath(__file__)), "..", "bench"))

from tried import build

OVER = ["c_reader", "c_tree", "dep_model", "slice_engine", "forward_chop", "graph_text"]

PROGRAM = r"""//! Slices of a program, what reaches a line, what that reaches, and its graph: the pipe or file, what is asked for, and lines.
#![tactic(auto)]

use anyhow::Context;
use c_reader::read_program;
use c_tree::{Program, Text};
use dep_model::{Locations, VertexSet};
use forward_chop::Chopper;
use slice_engine::{Criterion, Engine, OpenGate};
use std::alloc::Global;
use std::fs::Files;
use std::thread::Threads;
use std::{env, fs};

fn program_of(alloc: Global, bytes: &[u8]) -> anyhow::Result<Program> {
    read_program(alloc, bytes).map_err(|_| anyhow::Error::msg("not read"))
}

fn engine_of<R: AllocGlobal + Threads + Sync>(rt: &R, bytes: &[u8]) -> anyhow::Result<Engine> {
    let p = program_of(rt.alloc(), bytes)?;
    Engine::new(rt, rt.alloc(), p, 1, &OpenGate).map_err(|_| anyhow::Error::msg("a limit"))
}

fn show<R: Print + AllocGlobal>(rt: &R, text: &Text) -> anyhow::Result<()> {
    let shown = String::from_utf8_lossy(rt.alloc(), text.bytes())?;
    print!(rt; "{}", shown.as_str())?;
    Ok(())
}

fn criterion(engine: &Engine, line: &str) -> anyhow::Result<Criterion> {
    engine.criterion(line.parse::<u32>()?).context("no statement starts here")
}

fn slice<R: Print + AllocGlobal>(rt: &R, engine: &Engine, line: &str) -> anyhow::Result<()> {
    let text = engine.slice_text(rt.alloc(), criterion(engine, line)?)?;
    show(rt, &text)
}

// The vertices of a line.
fn vertices(alloc: Global, engine: &Engine, line: &str) -> anyhow::Result<Vec<u32>> {
    let found = engine.vertices(alloc, criterion(engine, line)?)?;
    Ok(found)
}

// What reaches a line, what a line reaches, or what stands between two lines.
fn set_of(alloc: Global, engine: &Engine, command: &str, lines: &[String]) -> anyhow::Result<VertexSet> {
    let first = lines.first().context("no line")?;
    if command == "members" {
        let set = engine.members(alloc, criterion(engine, first.as_str())?)?;
        return Ok(set);
    }
    let graph = engine.graph();
    let from = vertices(alloc, engine, first.as_str())?;
    let mut chopper = Chopper::prepare(alloc, graph, engine.facts())?;
    let mut set = VertexSet::new(alloc, graph.vertices.len() as u32)?;
    match lines.get(1) {
        None => chopper.forward(from.as_slice(), &mut set),
        Some(second) => {
            let to = vertices(alloc, engine, second.as_str())?;
            chopper.chop(from.as_slice(), to.as_slice(), &mut set);
        }
    }
    Ok(set)
}

// The graph, or a set of its vertices.
fn printed<R: Print + AllocGlobal>(
    rt: &R,
    bytes: &[u8],
    engine: &Engine,
    command: &str,
    lines: &[String],
) -> anyhow::Result<()> {
    let p = program_of(rt.alloc(), bytes)?;
    let list = Locations::of(rt.alloc(), &p).map_err(|_| anyhow::Error::msg("locations"))?;
    if command == "graph" {
        let text = graph_text::graph(rt.alloc(), &p, &list, engine.graph())?;
        return show(rt, &text);
    }
    let set = set_of(rt.alloc(), engine, command, lines)?;
    let text = graph_text::members(rt.alloc(), &p, &list, engine.graph(), &set)?;
    show(rt, &text)
}

fn main(rt: HostRuntime) -> anyhow::Result<()> {
    let mut words = env::args(&rt)?.into_iter().skip(1);
    let name = words.next().context("no file")?;
    let bytes = fs::read(&rt, name.as_str())?;
    let command = words.next().context("no command")?;
    let engine = engine_of(&rt, bytes.as_slice())?;
    let mut lines = Vec::new(rt.alloc());
    for word in words {
        lines.push(word)?;
    }
    if command.as_str() != "slice" {
        return printed(&rt, bytes.as_slice(), &engine, command.as_str(), lines.as_slice());
    }
    for line in &lines {
        slice(&rt, &engine, line.as_str())?;
    }
    Ok(())
}
"""


def trial_slicer(folder):
    """Builds it in an empty folder, and returns its path."""
    return build("parts", OVER, PROGRAM, folder)
