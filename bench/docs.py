#!/usr/bin/env python3
"""Measures changes of one character in an open document of lsp_documents.

--build makes a small program over the crate, bench/out/docs_bench. It opens a document with the text that comes on
standard input, and types so many letters, one change each, from a line and a character on, so many of them in each
notification. What a change takes is what the run takes longer than one with no change.

Usage: bench/docs.py [PROGRAM [PROGRAM]]
       bench/docs.py --build     (`rt` has to be on the path)
"""
import sys

import built
import measured
from measured import Figure, Row

CRATES = ["no_memory", "lsp_rpc", "lsp_shape", "lsp_uri", "lsp_kinds", "lsp_base", "lsp_documents"]

SOURCE = """//! Types letters into an open document, one change each.
#![tactic(auto)]

use lsp_base::{Position, Range, TextDocumentContentChangeEvent};
use lsp_documents::Documents;
use std::alloc::Global;
use std::io::Read;
use std::process::ExitCode;
use std::{env, io};

// The number that an argument writes, or 0.
fn number(arguments: &Vec<String>, i: usize) -> u32 {
    match arguments.get(i) {
        Some(argument) => argument.parse::<u32>().unwrap_or(0),
        None => 0,
    }
}

// So many letters that are typed from a position on, one change each.
fn letters(alloc: Global, from: Position, count: u32) -> io::Result<Vec<TextDocumentContentChangeEvent>> {
    let mut changes = Vec::new(alloc);
    for k in 0..count {
        let position = Position::new(from.line, from.character.saturating_add(k));
        changes.push(TextDocumentContentChangeEvent {
            range: Some(Range::new(position, position)),
            range_length: None,
            text: String::from_str(alloc, "x")?,
        })?;
    }
    Ok(changes)
}

fn run(rt: &HostRuntime) -> io::Result<bool> {
    let alloc = rt.alloc();
    let mut arguments = Vec::new(alloc);
    for argument in env::args(rt)?.skip(1) {
        arguments.push(argument)?;
    }
    let line = number(&arguments, 0);
    let character = number(&arguments, 1);
    let together = number(&arguments, 3).max(1);
    let text = io::read_to_string(alloc, rt.stdin())?;
    let mut documents = Documents::new(alloc);
    let mut all_made = documents.open("file:///a", 0, text).is_ok();
    for k in 0..number(&arguments, 2) / together {
        let from = Position::new(line, character.saturating_add(k.saturating_mul(together)));
        let changes = letters(alloc, from, together)?;
        all_made = all_made && documents.change("file:///a", 1, changes.as_slice()).is_ok();
    }
    Ok(all_made)
}

fn main(rt: HostRuntime) -> ExitCode {
    match run(&rt) {
        Ok(true) => ExitCode::from(0),
        _ => ExitCode::from(1),
    }
}
"""

LINE = "fn line() -> u32 { 40 } // 漢é a line\n".encode()


def lines(size):
    return LINE * (size // len(LINE))


def rows_of(title, text, line, character, changes, together=1):
    """The rows of a text and a place."""
    def time(program, path):
        words = [program, str(line), str(character)]
        seconds = (measured.spent(words + [str(changes), str(together)], path)[0]
                   - measured.spent(words + ["0"], path)[0])
        return [seconds * 1e6 / changes, changes / seconds]

    def memory(program, path):
        return [measured.most_memory([program, str(line), str(character), str(10 * together), str(together)], path)]
    write = lambda file: file.write(text())
    figures = [Figure(title, "us a change"), Figure(title, "changes a second", max)]
    yield Row("docs/time", "docs_bench", figures, time, [write])
    yield Row("docs/memory", "docs_bench", [Figure(title, "peak KiB", max)], memory, [write], 1)


def rows(sizes):
    for size in sizes.or_else(10_000, 1_000_000, 10_000_000):
        count = size // len(LINE)
        letters = 10_000 if size <= 1_000_000 else 500
        for place, line in (("start", 0), ("middle", count // 2), ("end", count)):
            yield from rows_of("{:,} bytes, {}".format(size, place), lambda size=size: lines(size), line, 0, letters)
        yield from rows_of("{:,} bytes, middle, 100 changes a notification".format(size),
                           lambda size=size: lines(size), count // 2, 0, letters, 100)
    for size in sizes.or_else(10_000_000):
        yield from rows_of("{:,} bytes in one line, end".format(size), lambda size=size: b"a" * size, 0, size, 500)
        yield from rows_of("{:,} empty lines, end".format(size), lambda size=size: b"\n" * size, size, 0, 500)


if __name__ == "__main__":
    if sys.argv[1:] == ["--build"]:
        built.build("docs_bench", CRATES, ["lsp_documents", "lsp_base"], SOURCE, "0", "0", "1")
    else:
        measured.main(rows, __doc__)
