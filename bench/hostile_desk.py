"""The desk where memory is refused: what it replies before that is what it replies otherwise.

No program of the repository makes just these calls, so `bench/hostile_desk.py --build` makes one, bench/out/desk_bench.
`.ci/hostile` leaves the rows out where it isn't built.
"""
import os
import sys

import built
from hostile_memory import refused
from hostile_run import Row

PROGRAM = os.path.join(built.OUT, "desk_bench")
CRATES = ["no_memory", "lsp_rpc", "lsp_keyed", "lsp_desk"]
SOURCE = """//! Makes calls on a desk, and prints what each is replied: two requests under one id, three answers
//! to it, and what comes of the tickets. It ends with 6 where memory is refused.
#![tactic(auto)]
ghost use Rattle.std.specs.Prelude.{◌≡◌, false, IfOk};
ghost use Rattle.lsp_desk.specs.Call.{call_has_float};
ghost use Rattle.lsp_desk.specs.Shown.{show_client_call, show_server_call};

use lsp_desk::{Caller, ClientCall, Desk, PlainDesk, ServerCall};
use lsp_rpc::{Id, NoMemory, Request, Response};
use serde_json::Value;
use std::alloc::Global;
use std::fmt::Debug;
use std::process::ExitCode;

fn asks(alloc: Global) -> Result<ClientCall, NoMemory>
    ensures { IfOk result (λ call. call_has_float (show_client_call call) ≡ false) }
{
    let method = String::from_str(alloc, "m")?;
    Ok(ClientCall::Raw(Request::build(method).id(Id::Number(1)).finish()))
}

fn answer(alloc: Global, text: &str) -> Result<ServerCall, NoMemory>
    ensures { IfOk result (λ call. call_has_float (show_server_call call) ≡ false) }
{
    let text = String::from_str(alloc, text)?;
    Ok(ServerCall::Answer(Response::from_ok(Id::Number(1), Value::String(text))))
}

fn tell<T: Debug + Drop, E: Drop>(rt: &HostRuntime, reply: Result<T, E>) -> Result<(), NoMemory> {
    match reply {
        Ok(reply) => match println!(rt; "{reply:?}") {
            Ok(()) => Ok(()),
            Err(_) => Err(NoMemory),
        },
        Err(_) => Err(NoMemory),
    }
}

fn make_calls(rt: &HostRuntime, desk: &mut PlainDesk) -> Result<(), NoMemory> {
    for _ in 0..2 {
        tell(rt, desk.client(asks(rt.alloc())?))?;
    }
    for text in ["bar", "foo", "x"] {
        tell(rt, desk.server(answer(rt.alloc(), text)?))?;
    }
    for ticket in [0, 1, 1] {
        tell(rt, desk.client(ClientCall::Poll(ticket)))?;
    }
    Ok(())
}

fn main(rt: HostRuntime) -> ExitCode {
    let mut desk = PlainDesk::new(rt.alloc());
    match make_calls(&rt, &mut desk) {
        Ok(()) => ExitCode::from(0),
        Err(NoMemory) => ExitCode::from(6),
    }
}
"""
# What it prints where nothing is refused: of two requests under one id the first is answered first.
REPLIES = b"""Ticket(0, Number(1))
Ticket(1, Number(1))
Given
Given
Ignored
Answer(Response { id: Number(1), body: Ok(String("bar")) })
Answer(Response { id: Number(1), body: Ok(String("foo")) })
Gone
"""


def rows(_):
    for name, alone in (("each growth refused", True), ("each growth refused with all later ones", False)):
        yield Row("desk: two requests under one id, %s" % name, 0, 60, refused(b"", alone, whole=REPLIES))


if __name__ == "__main__":
    if sys.argv[1:] != ["--build"]:
        sys.exit(__doc__)
    built.build("desk_bench", CRATES, ["lsp_desk", "lsp_rpc", "no_memory", "serde_json"], SOURCE)
