#!/usr/bin/env python3
"""Compares what a typed call costs with what the untyped one of the same text does, in instructions, by callgrind.

--build makes a small server over the crates, bench/out/typed_bench. It has hover, completion of 100 items and
`didChange` as methods of the protocol, and under custom names of the same lengths, where it gets and gives JSON;
what is sent and written is the same for both. As in instructions.py two sessions of different lengths are served,
and the difference is shared out among the messages that the longer one has more. A typed call reads its params by
`from_value` and writes its result by `to_value`, which the untyped one doesn't: what these two take is printed apart,
and left out of the quotient.

Usage: bench/typed.py [PROGRAM]     (valgrind has to be on the path)
       bench/typed.py --build       (`rt` has to be on the path)
"""
import os
import re
import subprocess
import sys
import tempfile

import built
import instructions
import measured
import sessions

SOURCE = """//! A server that gets calls of the protocol typed, and under custom names as JSON.
#![tactic(auto)]

use lsp_desk::PlainDesk;
use lsp_server::Server;
use lsp_service::{
    Answering, AtOnce, Call, EditCall, EditReply, InitializeReply, LifeCall, LifeReply, LspService,
    NoMemory, Reply, ShowCall, ShowReply, SyncCall, let_go, not_found_for, serve_stdio,
};
use lsp_session::Kind;
use lsp_types::{
    CompletionItem, CompletionParams, CompletionResponse, DidChangeTextDocumentParams, Hover,
    HoverContents, HoverParams, MarkedString, ServerCapabilities,
};
use serde_json::{Value, json};
use std::alloc::Global;
use std::process::ExitCode;

#[derive(Drop)]
struct Both;

impl Answering for Both {
    fn answer(&mut self, alloc: Global, call: Call) -> Result<Reply, NoMemory> {
        match call {
            Call::Life(LifeCall::Initialize(_)) => {
                let_go(call);
                let offered = InitializeReply::offering(alloc, ServerCapabilities::default())?;
                Ok(Reply::Life(LifeReply::Initialize(Ok(offered))))
            }
            Call::Life(LifeCall::Shutdown) => Ok(Reply::Life(LifeReply::Shutdown(Ok(())))),
            Call::Show(ShowCall::Hover(params)) => {
                let hover = hover(alloc, &params)?;
                Ok(Reply::Show(ShowReply::Hover(Ok(Some(hover)))))
            }
            Call::Edit(EditCall::Completion(params)) => {
                let items = items(alloc, &params)?;
                Ok(Reply::Edit(EditReply::Completion(Ok(Some(items)))))
            }
            Call::Sync(SyncCall::DidChange(params)) => Ok(changed(&params)),
            Call::Custom(0, Some(params)) => Ok(Reply::Custom(Ok(plain_hover(alloc, params)?))),
            Call::Custom(1, Some(params)) => Ok(Reply::Custom(Ok(plain_items(alloc, params)?))),
            Call::Custom(_, _) => Ok(Reply::Noted),
            other => not_found_for(alloc, other),
        }
    }
}

fn changed(_params: &DidChangeTextDocumentParams) -> Reply {
    Reply::Noted
}

fn hover(alloc: Global, params: &HoverParams) -> Result<Hover, NoMemory> {
    let line = params.text_document_position_params.position.line;
    let text = MarkedString::String(format!(in alloc; "Hello from line {line}")?);
    Ok(Hover {
        contents: HoverContents::Scalar(text),
        range: None,
    })
}

fn plain_hover(alloc: Global, params: Value) -> Result<Value, NoMemory> {
    let line = match params.get("position") {
        Some(position) => position.get("line").and_then(Value::as_u64).unwrap_or(0),
        None => 0,
    };
    let text = format!(in alloc; "Hello from line {line}")?;
    match json!(in alloc; {"contents": text.as_str()}) {
        Ok(hover) => Ok(hover),
        Err(_) => Err(NoMemory),
    }
}

fn items(alloc: Global, _params: &CompletionParams) -> Result<CompletionResponse, NoMemory> {
    let mut items = Vec::new(alloc);
    for _ in 0..100 {
        let label = String::from_str(alloc, "hello")?;
        items.push(CompletionItem::new_simple(label, String::from_str(alloc, "hi")?))?;
    }
    Ok(CompletionResponse::Array(items))
}

fn plain_items(alloc: Global, _params: Value) -> Result<Value, NoMemory> {
    let mut items = Vec::new(alloc);
    for _ in 0..100 {
        items.push(plain_item(alloc)?)?;
    }
    Ok(Value::Array(items))
}

fn plain_item(alloc: Global) -> Result<Value, NoMemory> {
    match json!(in alloc; {"detail": "hi", "label": "hello"}) {
        Ok(item) => Ok(item),
        Err(_) => Err(NoMemory),
    }
}

fn main(rt: HostRuntime) -> ExitCode {
    let desk = PlainDesk::new(rt.alloc());
    let Ok(mut builder) = LspService::build(rt.alloc(), AtOnce { server: Both }, desk) else {
        return ExitCode::from(6);
    };
    let hover = builder.custom_method("xxxxDocument/hover", Kind::Request);
    let completion = builder.custom_method("xxxxDocument/completion", Kind::Request);
    let change = builder.custom_method("xxxxDocument/didChange", Kind::Notification);
    if hover.is_err() || completion.is_err() || change.is_err() {
        return ExitCode::from(6);
    }
    let (service, socket) = builder.finish();
    let _ = serve_stdio(rt.alloc(), rt.stdin(), rt.stdout(), service, Server::new(socket));
    ExitCode::from(0)
}
"""

NEEDS = ["lsp_types", "lsp_service", "lsp_server", "lsp_session", "lsp_desk", "serde_json"]


def completion(number):
    params = b'{"textDocument":{"uri":"%s"},"position":{"line":12,"character":34}}' % sessions.MAIN
    return sessions.request(number, b"textDocument/completion", params)


# Of each call its name, its message, and how many are sent.
CALLS = {
    "hover": (sessions.hover, (1000, 5000)),
    "completion of 100 items": (completion, (20, 100)),
    "didChange": (sessions.change, (1000, 5000)),
}
# The functions that read and write types, and what they are made of. Some stand within their callers, as a program is
# compiled: of these what they call is counted, and the rest is not.
READS = re.compile(r"\w+Wire::from_value\b|\blsp_shape::")
WRITES = re.compile(r"\w+Wire::to_value\b|\blsp_shape::")
READER, WRITER = "lsp_service::read::", "lsp_service::write::"


def untyped(body):
    return lambda number: body(number).replace(b'"textDocument/', b'"xxxxDocument/', 1)


def crates_below(names):
    """The crates of the repository that these stand on, and these."""
    with open(os.path.join(measured.ROOT, "crates.txt")) as file:
        needs = {line.split(":")[0].split()[0]: line.split(":")[1].split() for line in file if re.match(r"\w+.*:", line)}
    found, left = [], [name for name in names if name in needs]
    while left:
        name = left.pop()
        if name not in found:
            found.append(name)
            left += [below for below in needs[name] if below in needs]
    return found


def called(lines):
    """The calls of a run, from what callgrind writes: the function that calls, the one that is called, and the
    instructions of these calls in all."""
    names, caller, callee, is_cost = {}, None, None, False
    for line in lines:
        found = re.match(r"(c?fn)=(\(\d+\))(?: (.*))?$", line)
        if found:
            kind, number, name = found.groups()
            name = names.setdefault(number, name)
            if kind == "fn":
                caller = name
            else:
                callee = name
        elif line.startswith("calls="):
            is_cost = True
        elif is_cost:
            is_cost = False
            yield caller, callee, int(line.split()[1])


def profiled(program, path):
    """The instructions of a run on the file's bytes, and of those what reading params and writing results takes."""
    with tempfile.NamedTemporaryFile("r") as out, open(path, "rb") as given:
        words = ["valgrind", "--tool=callgrind", "--callgrind-out-file=" + out.name, program]
        done = subprocess.run(words, stdin=given, stdout=subprocess.DEVNULL, stderr=subprocess.PIPE, text=True,
                              env=dict(os.environ, GLIBC_TUNABLES=instructions.TUNABLES))
        if done.returncode != 0:
            measured.failed(words, "ended with status %d: %s" % (done.returncode, done.stderr))
        calls = list(called(out))
    read = sum(cost for caller, callee, cost in calls if READER in caller and READS.search(callee))
    written = sum(cost for caller, callee, cost in calls if WRITER in caller and WRITES.search(callee))
    return int(re.search(r"Collected : (\d+)", done.stderr)[1]), read, written


def counts(program, body, lengths):
    """Instructions of one message more, and of those what reading params and writing results takes."""
    few, many = lengths
    runs = []
    for length in lengths:
        with measured.written(sessions.session(body, length, sessions.SHUTDOWN, sessions.EXIT)) as path:
            runs.append(profiled(program, path))
    return [(long - short) / (many - few) for short, long in zip(*runs)]


def main():
    program = sys.argv[1] if sys.argv[1:] else os.path.join(built.OUT, "typed_bench")
    if not os.path.isfile(program):
        sys.exit("%s isn't built (bench/typed.py --build)" % program)
    measured.print_line(["instructions of a call", "typed", "read", "written", "untyped", "quotient"])
    measured.print_line(["---"] + ["--:"] * 5)
    for name, (body, lengths) in CALLS.items():
        typed, read, written = counts(program, body, lengths)
        plain, _, _ = counts(program, untyped(body), lengths)
        measured.print_line([name, *map(measured.shown, (typed, read, written, plain, (typed - read - written) / plain))])


if __name__ == "__main__":
    if sys.argv[1:] == ["--build"]:
        built.build("typed_bench", crates_below(NEEDS), NEEDS, SOURCE)
    else:
        main()
