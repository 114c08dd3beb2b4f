#!/usr/bin/env python3
"""Measures a talk of lsp_sample: callers on threads of their own, who each send as many messages through a shared desk
beside a session, and what came is taken. Beside it stands as many messages of one thread through a desk that is its
own.

A talk takes some milliseconds, so each figure is the median of 200 runs without that of as many runs of no messages,
which alternate with them, and the median of the tries. The processor's time stands beside the clock's: a message takes
more of it with each caller more, if those that wait for their turn keep a processor meanwhile.

--build makes a small program over lsp_desk, bench/out/talk_bench, for the desk of one thread.

Usage: bench/talk.py [PROGRAM [PROGRAM]] [MESSAGES ..]     (default: 1000, which is the most)
       bench/talk.py --build     (`rt` has to be on the path)
"""
import sys
import time
from statistics import median

import built
import measured
from measured import Figure, Row

CRATES = ["no_memory", "lsp_rpc", "lsp_keyed", "lsp_desk"]

SOURCE = """//! Sends log messages through a desk that one thread uses, takes them, and prints how many came.
#![tactic(auto)]

ghost use Rattle.std.specs.Prelude.{◌≡◌, false, IfOk};
ghost use Rattle.lsp_desk.specs.Call.{call_has_float};
ghost use Rattle.lsp_desk.specs.Shown.{show_client_call};

use lsp_desk::{Caller, ClientCall, Desk, DeskFault, PlainDesk, ServerCall, ServerReply};
use lsp_rpc::NoMemory;
use serde_json::json;
use std::alloc::Global;
use std::env;
use std::process::ExitCode;

// What a caller of a talk sends.
fn message(alloc: Global, caller: u64, n: u64) -> Result<ClientCall, NoMemory>
    ensures { IfOk result (λ call. call_has_float (show_client_call call) ≡ false) }
{
    let method = String::from_str(alloc, "window/logMessage")?;
    let text = format!(in alloc; "clone {caller} message {n}")?;
    match json!(in alloc; {"message": text, "type": 4}) {
        Ok(params) => Ok(ClientCall::Tell {
            method,
            params,
            gated: false,
        }),
        Err(_) => Err(NoMemory),
    }
}

// Sends the messages of so many callers, one caller's after another's, and takes what came.
fn talk(alloc: Global, callers: u64, messages: u64) -> Result<u64, DeskFault> {
    let mut desk = PlainDesk::new(alloc);
    for caller in 0..callers {
        for n in 0..messages {
            desk.client(message(alloc, caller, n)?)?;
        }
    }
    match desk.server(ServerCall::Take)? {
        ServerReply::Messages(messages) => Ok(messages.len() as u64),
        _ => Ok(0),
    }
}

fn main(rt: HostRuntime) -> ExitCode {
    let mut numbers = [0, 0];
    let Ok(arguments) = env::args(&rt) else {
        return ExitCode::from(6);
    };
    for (number, argument) in numbers.iter_mut().zip(arguments.skip(1)) {
        *number = argument.parse::<u64>().unwrap_or(0);
    }
    match talk(rt.alloc(), numbers[0], numbers[1]) {
        Ok(came) => match println!(rt; "{came}") {
            Ok(()) => ExitCode::SUCCESS,
            Err(_) => ExitCode::from(4),
        },
        Err(_) => ExitCode::from(6),
    }
}
"""

# How many runs a figure is of.
RUNS = 200

CALLERS = (1, 2, 4)


def taken(words):
    """Seconds of the clock, and of a processor, of one run."""
    begun = time.perf_counter()
    processor = measured.spent(words)[0]
    return time.perf_counter() - begun, processor


def row(name, program, mode, title, callers, messages):
    def run(path):
        words = [path, *mode, str(callers)]
        pairs = [(taken(words + [str(messages)]), taken(words + ["0"])) for _ in range(RUNS)]
        clock, processor = (median(some[i] for some, _ in pairs) - median(none[i] for _, none in pairs) for i in (0, 1))
        return [callers * messages / clock, clock * 1e3, processor * 1e3]
    title = "{}, {:,} each".format(title, messages)
    figures = [Figure(title, "messages a second", median), Figure(title, "ms of the clock", median),
               Figure(title, "ms of a processor", median)]
    return Row(name, program, figures, run)


def rows(sizes):
    for messages in sizes.or_else(1_000):
        for callers in CALLERS:
            title = "%d caller%s" % (callers, "s" * (callers > 1))
            yield row("talk/threads", "lsp_sample", ["talk"], title + " on threads", callers, messages)
            yield row("talk/plain", "talk_bench", [], title + " in turn, a desk of one thread", callers, messages)


if __name__ == "__main__":
    if sys.argv[1:] == ["--build"]:
        built.build("talk_bench", CRATES, ["lsp_desk", "lsp_rpc", "no_memory", "serde_json"], SOURCE, "1", "1")
    else:
        measured.main(rows, __doc__)
