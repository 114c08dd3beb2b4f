#!/usr/bin/env python3
"""Measures the codec of lsp_frame on large heads and bodies, on garbage and on empty frames.

The words of the server's program set no limits, so --build makes a small program over the codec, bench/out/frame_bench.
It takes the limits of a head and a body in bytes, feeds the codec what comes on standard input in
pieces of 4,096 bytes, decodes after each, and prints how many items were told and how many bytes were held
at most after `More`.

Usage: bench/frame.py [PROGRAM [PROGRAM]]
       bench/frame.py --build     (`rt` has to be on the path)
"""
import os
import sys

import built
import measured
from measured import Figure, Row
from sessions import frame

CRATES = ["no_memory", "lsp_rpc", "lsp_text", "lsp_frame"]
MIB = 1 << 20

SOURCE = """//! Feeds a codec what standard input gives, and prints what it told and held.
#![tactic(auto)]
ghost use Rattle.std.specs.Prelude.{◌≤◌};

use lsp_frame::{Decoded, LanguageServerCodec, Limits};
use std::io::Read;
use std::process::ExitCode;
use std::{env, io};

// The number that an argument writes, or 1.
fn number(arguments: &Vec<String>, i: usize) -> u64
    ensures { 1 ≤ result }
{
    match arguments.get(i) {
        Some(argument) => match argument.parse::<u64>() {
            Ok(number) => number.max(1),
            Err(_) => 1,
        },
        None => 1,
    }
}

fn run(rt: &HostRuntime) -> io::Result<()> {
    let mut arguments = Vec::new(rt.alloc());
    for argument in env::args(rt)?.skip(1) {
        arguments.push(argument)?;
    }
    let limits = Limits {
        head: number(&arguments, 0),
        body: number(&arguments, 1),
    };
    let mut codec = LanguageServerCodec::with_limits(rt.alloc(), limits);
    let mut piece = vec![in rt.alloc(); 0u8; 4096]?;
    let mut input = rt.stdin();
    let mut items = 0u64;
    let mut held = 0u64;
    for _ in 0..u64::MAX {
        let n = input.read(piece.as_mut_slice())?;
        if n == 0 || codec.feed(&piece[..n]).is_err() {
            break;
        }
        for _ in 0..u64::MAX {
            match codec.decode() {
                Ok(Decoded::More) | Err(_) => break,
                Ok(_) => items = items.saturating_add(1),
            }
        }
        held = held.max(codec.held());
    }
    println!(rt; "{items} {held}")?;
    Ok(())
}

fn main(rt: HostRuntime) -> ExitCode {
    match run(&rt) {
        Ok(()) => ExitCode::from(0),
        Err(_) => ExitCode::from(1),
    }
}
"""


def filled(start, end, size):
    """So many bytes: a start, an end, and letters between."""
    return start + b"a" * (size - len(start) - len(end)) + end


def whole_body(size):
    return frame(filled(b'{"jsonrpc":"2.0","method":"', b'"}', size))


def heads(size):
    """Heads of 8,180 bytes."""
    block = b"Content-Length" * 584 + b"\r\n\r\n"
    return block * (size // len(block))


# Of each kind what it is, the limits of a head and a body, what makes so many bytes of it, and the sizes.
KINDS = [
    ("one head", 16 * MIB, 1, lambda size: filled(b"X: ", b"\r\nContent-Length: 2\r\n\r\n", size) + b"{}",
     [1 * MIB, 2 * MIB, 4 * MIB, 8 * MIB]),
    ("one head of short lines", 16 * MIB, 1, lambda size: b"X: aaaa\n" * (size // 8),
     [1 * MIB, 2 * MIB, 4 * MIB, 8 * MIB]),
    ("one body, a message", 8192, 64 * MIB, whole_body, [1 * MIB, 8 * MIB, 64 * MIB]),
    ("garbage without `Content-Length`", 8192, 64 * MIB, lambda size: b"x" * size, [10_000_000]),
    ("empty frames", 8192, 64 * MIB, lambda size: frame(b"") * (size // 21), [21_000_000]),
    ("`Content-Length` again and again", 8192, 64 * MIB, lambda size: b"Content-Length" * (size // 14),
     [256 * 1024, 2 * MIB]),
    ("the same in heads at the limit", 8192, 64 * MIB, heads, [256 * 1024, 2 * MIB]),
]


def rows_of(title, limits, write):
    """The rows of an input."""
    def time(program, path):
        return [measured.spent([program] + limits, path)[0] * 1e9 / os.path.getsize(path)]

    def memory(program, path):
        return [measured.most_memory([program] + limits, path)]
    yield Row("frame/time", "frame_bench", [Figure(title, "ns a byte")], time, [write])
    yield Row("frame/memory", "frame_bench", [Figure(title, "peak KiB", max)], memory, [write], 1)


def rows(_):
    for kind, head, body, made, sizes in KINDS:
        for size in sizes:
            title = "{}, {:,} bytes".format(kind, size)
            yield from rows_of(title, [str(head), str(body)], lambda file, made=made, size=size: file.write(made(size)))


if __name__ == "__main__":
    if sys.argv[1:] == ["--build"]:
        built.build("frame_bench", CRATES, ["lsp_frame", "no_memory"], SOURCE, "1", "1")
    else:
        measured.main(rows, __doc__)
