"""A program that reads each line of standard input as a type, and prints what is written of it: bench/out/types_bench.

No program of the repository reads the types alone.
"""
import subprocess

import built
import measured
from measured import Figure, Row

TRIES = 3
CRATES = ["no_memory", "lsp_rpc", "lsp_shape", "lsp_uri", "lsp_kinds", "lsp_names", "lsp_base", "lsp_lang_goto",
          "lsp_lang_item", "lsp_tokens", "lsp_lsif"]
# The types by the names that the argument may be.
TYPES = {
    "completion": "lsp_lang_item::CompletionResponse",
    "symbols": "lsp_lang_goto::DocumentSymbolResponse",
    "tokens": "lsp_tokens::SemanticTokensResult",
    "entry": "lsp_lsif::Entry",
}

SOURCE = """//! Reads each line as the type that the argument names, and prints what is written of it.
#![tactic(auto)]

use lsp_shape::Wire;
use serde_json::Value;
use std::alloc::Global;
use std::io::{BufWriter, Write};
use std::process::ExitCode;
use std::{env, io};

// What is written of the text, or none where it is not read.
fn written<T: Wire>(alloc: Global, text: &str) -> Option<String> {
    let value = Value::from_str(alloc, text).ok()?;
    let read = T::from_value(alloc, &value).ok()?;
    drop(value);
    let written = read.to_value(alloc).ok()?;
    drop(read);
    written.to_string(alloc).ok()
}

fn written_as(alloc: Global, name: &str, text: &str) -> Option<String> {
    match name {
ARMS        _ => None,
    }
}

fn run(rt: &HostRuntime) -> io::Result<()> {
    let alloc = rt.alloc();
    let mut name = String::new(alloc);
    for word in env::args(rt)?.skip(1) {
        name = word;
    }
    let mut out = BufWriter::new(alloc, rt.stdout())?;
    for line in rt.lines(alloc) {
        if let Some(text) = written_as(alloc, name.as_str(), line?.as_str()) {
            writeln!(out, "{text}")?;
        }
    }
    out.flush()
}

fn main(rt: HostRuntime) -> ExitCode {
    match run(&rt) {
        Ok(()) => ExitCode::from(0),
        Err(_) => ExitCode::from(1),
    }
}
"""


def build():
    used = sorted({path.split("::")[0] for path in TYPES.values()})
    arms = "".join('        "%s" => written::<%s>(alloc, text),\n' % it for it in TYPES.items())
    built.build("types_bench", CRATES, used + ["lsp_shape", "no_memory", "serde_json"], SOURCE.replace("ARMS", arms),
                "completion")


def megabytes(program, kind, path):
    """Megabytes a second of one run. What is printed has to be the input."""
    seconds, printed = measured.spent([program, kind], path, subprocess.PIPE)
    with open(path, "rb") as given:
        if printed != given.read():
            measured.failed([program, kind], "what is written is not what was read")
    return len(printed) / seconds / 1e6


def rows_of(name, kind, title, text):
    """The rows of an input, which `text` gives."""
    def time(program, path):
        return [megabytes(program, kind, path)]

    def memory(program, path):
        return [measured.most_memory([program, kind], path)]

    write = [lambda file: file.write(text().encode())]
    yield Row(name + "/time", "types_bench", [Figure(title, "MB a second", max)], time, write, TRIES)
    yield Row(name + "/memory", "types_bench", [Figure(title, "peak KiB", max)], memory, write, 1)
