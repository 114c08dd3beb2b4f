#!/usr/bin/env python3
"""Measures queries over an index of a program, and compares the answers with those of a plain script.

The dumps have documents with ranges, result sets, chains of edges `next` that are 1,000 long, and items that
lead to 1,000 ranges. A row tells what a line takes of a processor and the most memory that was held; beside it
what reading and decoding each line takes alone, by a small program that lets each entry go (`--build` makes it,
bench/out/entries_bench), and the same by this script's own plain queries, which read with json and look up in
dicts. `--instructions` counts by callgrind what a line takes, in place of time. `--compare` makes random dumps,
in which ids are repeated, missing, numbers or texts, and edges lead in circles, and asks both. With `--large`
all queries are over one dump of 10,000 entries.

Usage: bench/index.py PROGRAM [LINES..]             rows; lines are 10000 100000 1000000 unless given
       bench/index.py --instructions PROGRAM [LINES..]
       bench/index.py --compare [--large] PROGRAM [QUERIES [SEED]]
       bench/index.py --plain WORDS.. <DUMP          the plain script alone
       bench/index.py --build                        (`rt` has to be on the path)
"""
import contextlib
import json
import os
import random
import subprocess
import sys
import tempfile

import built
from instructions import counted
from measured import ROOT, most_memory, spent

# ---- A program that reads entries, and does nothing with them.

ALONE = os.path.join(ROOT, "bench", "out", "entries_bench")
CRATES = ["no_memory", "lsp_rpc", "lsp_shape", "lsp_uri", "lsp_kinds", "lsp_names", "lsp_base",
          "lsp_lang_goto", "lsp_tokens", "lsp_lsif"]
SOURCE = """//! Reads each line of standard input as an entry of an index, lets it go, and counts those that are read.
#![tactic(auto)]

use lsp_lsif::Entry;
use lsp_shape::{Wire, read_text};
use std::alloc::Global;
use std::io;
use std::process::ExitCode;

fn is_read<T: Wire>(alloc: Global, line: &str) -> bool {
    read_text::<T>(alloc, line).is_ok()
}

fn count(rt: &HostRuntime) -> io::Result<u64> {
    let mut count: u64 = 0;
    for line in rt.lines(rt.alloc()) {
        if is_read::<Entry>(rt.alloc(), line?.as_str()) {
            count = count.saturating_add(1);
        }
    }
    Ok(count)
}

fn main(rt: HostRuntime) -> ExitCode {
    let Ok(count) = count(&rt) else {
        return ExitCode::from(1);
    };
    match println!(rt; "{count}") {
        Ok(()) => ExitCode::from(0),
        Err(_) => ExitCode::from(1),
    }
}
"""


# ---- The plain queries, by lists and dicts.


def same(id):
    """A number and a text are different ids."""
    return (isinstance(id, str), id)


class Dump:
    def __init__(self, lines, request):
        self.vertices, self.contained, self.nexts, self.results, self.items = {}, [], {}, {}, {}
        for line in lines:
            if not line.strip("\n"):
                continue
            entry = json.loads(line)
            label = entry["label"]
            if entry["type"] == "vertex":
                self.vertices.setdefault(same(entry["id"]), entry)
            elif label == "contains":
                self.contained.append(entry)
            elif label == "next":
                self.nexts.setdefault(same(entry["outV"]), entry["inV"])
            elif label == "textDocument/" + request:
                self.results.setdefault(same(entry["outV"]), entry["inV"])
            elif label == "item":
                self.items.setdefault(same(entry["outV"]), []).append(entry)

    def vertex(self, id, label):
        entry = self.vertices.get(same(id))
        return entry if entry is not None and entry["label"] == label else None

    def chosen(self, uri, position):
        named = set()
        for edge in self.contained:
            document = self.vertex(edge["outV"], "document")
            if document is not None and document["uri"] == uri:
                named.update(map(same, edge["inVs"]))
        best = None
        for key, entry in self.vertices.items():
            if entry["label"] != "range" or key not in named:
                continue
            start, end = at(entry["start"]), at(entry["end"])
            if start <= position < end and (best is None or start > best[0] or (start == best[0] and end < best[1])):
                best = (start, end, entry["id"])
        return None if best is None else best[2]

    def reached(self, vertex):
        passed = set()
        while same(vertex) not in passed:
            passed.add(same(vertex))
            if same(vertex) in self.results:
                return self.results[same(vertex)]
            if same(vertex) not in self.nexts:
                return None
            vertex = self.nexts[same(vertex)]
        return None

    def add_locations(self, found, item):
        document = self.vertex(item["document"], "document")
        for id in item["inVs"] if document is not None else []:
            place = self.vertex(id, "range")
            if place is not None:
                whole = {"range": {"end": tidy(place["end"]), "start": tidy(place["start"])}, "uri": document["uri"]}
                found.setdefault(json.dumps(whole), whole)

    def definition(self, result):
        found = {}
        for item in self.items.get(same(result), []):
            self.add_locations(found, item)
        return list(found.values())

    def references(self, result):
        results, found = {same(result): result}, {}
        queue = [result]
        for member in queue:
            for item in self.items.get(same(member), []):
                for id in item["inVs"] if item.get("property") == "referenceResults" else []:
                    if same(id) not in results:
                        results[same(id)] = id
                        queue.append(id)
        for member in queue:
            for item in self.items.get(same(member), []):
                if item.get("property") in ("declarations", "definitions", "references"):
                    self.add_locations(found, item)
        return list(found.values())


def at(position):
    return (position["line"], position["character"])


def tidy(position):
    return {"character": position["character"], "line": position["line"]}


def asked(lines, request, uri, line, character):
    return answered(Dump(lines, request), request, uri, line, character)


def answered(dump, request, uri, line, character):
    start = dump.chosen(uri, (int(line), int(character)))
    result = None if start is None else dump.reached(start)
    if request == "hover":
        hover = None if result is None else dump.vertex(result, "hoverResult")
        return None if hover is None else hover["result"]
    if result is None:
        return []
    return dump.definition(result) if request == "definition" else dump.references(result)


def text(value):
    return json.dumps(value, separators=(",", ":"), ensure_ascii=False, sort_keys=True)


# ---- Dumps.


class Writer:
    def __init__(self, file):
        self.file, self.id, self.lines = file, 0, 0

    def put(self, **entry):
        self.id += 1
        self.lines += 1
        self.file.write(json.dumps({"id": self.id, **entry}, separators=(",", ":")) + "\n")
        return self.id

    def vertex(self, label, **rest):
        return self.put(type="vertex", label=label, **rest)

    def edge(self, label, out, **rest):
        return self.put(type="edge", label=label, outV=out, **rest)


def big(file, lines):
    """Documents of 1,000 ranges; each third has a chain of 1,000 edges `next`, and an item of 1,000 ranges."""
    writer, documents = Writer(file), 0
    while writer.lines < lines:
        document = writer.vertex("document", uri="file:///src/module_%d.rs" % documents, languageId="rust")
        ranges = []
        for n in range(1000):
            ranges.append(writer.vertex("range", start={"line": n, "character": 4}, end={"line": n, "character": 12 + n % 9},
                                        tag={"type": "reference", "text": "name_%d" % n}))
        definition = writer.vertex("definitionResult")
        references = writer.vertex("referenceResult")
        hover = writer.vertex("hoverResult", result={"contents": {"kind": "markdown", "value": "fn module_%d()" % documents}})
        sets = [writer.vertex("resultSet")]
        for n in range(999 if documents % 3 == 0 else 10):
            sets.append(writer.vertex("resultSet"))
            writer.edge("next", sets[-2], inV=sets[-1])
        for each in ranges:
            writer.edge("next", each, inV=sets[0])
        for label, result in (("definition", definition), ("references", references), ("hover", hover)):
            writer.edge("textDocument/" + label, sets[-1], inV=result)
        writer.edge("item", definition, inVs=ranges[:1], document=document)
        writer.edge("item", references, inVs=ranges, document=document, property="references")
        writer.edge("contains", document, inVs=ranges)
        documents += 1
    return documents


def any_dump(draw, lines, spread=3):
    """Entries of all kinds, in any order, over few ids. Most edges lead between vertices of the labels that fit."""
    ids = list(range(draw.choice([8, 20, 60] if lines < 1000 else [200, 2000]))) + [str(n) for n in range(4)]
    first = {}

    def id(*labels):
        fit = [each for each in ids if first.get(same(each)) in labels]
        return draw.choice(fit if fit and draw.random() < 0.85 else ids)

    def some(label, most):
        return [id(label) for _ in range(draw.randrange(most))]

    def place(last):
        return {"line": draw.randrange(spread) + last, "character": draw.randrange(6)}

    out = []
    for _ in range(lines):
        kind = draw.choice(["document", "document", "range", "range", "range", "resultSet", "definitionResult", "referenceResult", "hoverResult",
                            "next", "next", "next", "contains", "contains", "definition", "references", "hover", "item", "item", "item", "moniker"])
        entry = {"id": draw.choice(ids)}
        if kind in ("document", "range", "resultSet") or kind.endswith("Result"):
            entry.update(type="vertex", label=kind)
            first.setdefault(same(entry["id"]), kind)
            if kind == "document":
                entry.update(uri="file:///%s" % draw.choice("aab"), languageId="x")
            elif kind == "range":
                entry.update(start=place(0), end=place(1))
            elif kind == "hoverResult":
                entry.update(result={"contents": {"kind": "plaintext", "value": "h%s" % entry["id"]}})
        elif kind == "next":
            entry.update(type="edge", label=kind, outV=id("range", "resultSet"), inV=id("resultSet"))
        elif kind == "contains":
            entry.update(type="edge", label=kind, outV=id("document"), inVs=some("range", 9))
        elif kind == "item":
            role = draw.choice([None, "declarations", "definitions", "references", "referenceResults", "implementationResults"])
            linked = role == "referenceResults"
            entry.update(type="edge", label=kind, outV=id("referenceResult", "definitionResult"), document=id("document"),
                         inVs=some("referenceResult" if linked else "range", 5))
            if role is not None:
                entry["property"] = role
        elif kind == "moniker":
            entry.update(type="edge", label=kind, outV=id("range"), inV=id("resultSet"))
        else:
            result = {"definition": "definitionResult", "references": "referenceResult", "hover": "hoverResult"}[kind]
            entry.update(type="edge", label="textDocument/" + kind, outV=id("range", "resultSet"), inV=id(result))
        out.append(json.dumps(entry) + draw.choice(["\n", "\n", "\r\n", "\n\n"]))
    return out


# ---- What is told.


@contextlib.contextmanager
def big_dump(size):
    """The path of a dump of about so many lines, how many these are, and the words of a query but the first."""
    with tempfile.NamedTemporaryFile("w", suffix=".lsif") as file:
        documents = big(file, size)
        file.flush()
        with open(file.name) as dump:
            lines = sum(1 for _ in dump)
        last = documents // 3 * 3 if documents % 3 else documents - 3
        yield file.name, lines, ["file:///src/module_%d.rs" % last, "500", "6"]


def seconds(command, dump, lines):
    """The processor's seconds of the dump's lines, and what was printed: the least of runs that are more where the
    dump is short, without what a run over nothing takes."""
    runs = [spent(command, dump, subprocess.PIPE) for _ in range(max(5, min(40, 500_000 // lines)))]
    nothing = min(spent(command)[0] for _ in range(20))
    return min(run[0] for run in runs) - nothing, runs[0][1]


def alone(dump, lines):
    """What reading and decoding the lines takes alone, or none where the program isn't built."""
    if not os.path.isfile(ALONE):
        return None
    took, count = seconds([ALONE], dump, lines)
    if int(count) != lines:
        sys.exit("%s of %d lines are read" % (count.decode().strip(), lines))
    return took


def rows(program, sizes):
    for size in sizes:
        with big_dump(size) as (dump, lines, place):
            bytes_in, decoding = os.path.getsize(dump), alone(dump, lines)
            if decoding is not None:
                print("reading and decoding %d lines, %.1f MB, alone: %.3f us a line" % (lines, bytes_in / 1e6, decoding * 1e6 / lines),
                      flush=True)
            for request in ("definition", "references", "hover"):
                took, answer = seconds([program, request, *place], dump, lines)
                kib = most_memory([program, request, *place], dump)
                command = [sys.executable, __file__, "--plain", request, *place]
                plain, wanted = spent(command, dump, subprocess.PIPE)
                print("%s of %d lines, %.1f MB: %.3f us a line, %s times reading and decoding alone, %.0f lines a second, "
                      "%d KiB (%.2f of the dump); plain %.0f lines a second, %d KiB; answers %s"
                      % (request, lines, bytes_in / 1e6, took * 1e6 / lines, "%.2f" % (took / decoding) if decoding else "?",
                         lines / took, kib, kib * 1024 / bytes_in, lines / plain, most_memory(command, dump),
                         "agree" if answer == wanted else "DIFFER"), flush=True)


def instructions(program, sizes):
    """What a line takes at each size: what all lines take, without what a run over nothing does, shared out."""
    for size in sizes:
        with big_dump(size) as (dump, lines, place):
            told = []
            for request in ("definition", "references", "hover"):
                words = [program, request, *place]
                told.append("%s %.0f" % (request, (counted(words, dump) - counted(words, os.devnull)) / lines))
            if os.path.isfile(ALONE):
                told.append("reading and decoding alone %.0f" % ((counted([ALONE], dump) - counted([ALONE], os.devnull)) / lines))
            print("instructions a line, of %d lines: %s" % (lines, ", ".join(told)), flush=True)


def compare_large(program, queries, seed):
    """Queries over one dump, which the plain script reads once for each request."""
    draw, failed, answers, spread = random.Random(seed), 0, 0, 100
    lines = any_dump(draw, 10_000, spread)
    told = [line.replace("\r", "") for line in "".join(lines).split("\n")]
    dumps = {request: Dump(told, request) for request in ("definition", "references", "hover")}
    with tempfile.TemporaryFile() as file:
        file.write("".join(lines).encode())
        for _ in range(queries):
            words = [draw.choice(list(dumps)), "file:///%s" % draw.choice("aab"), str(draw.randrange(spread)), str(draw.randrange(6))]
            wanted = text(answered(dumps[words[0]], *words)) + "\n"
            file.seek(0)
            given = subprocess.run([program] + words, stdin=file, stdout=subprocess.PIPE)
            answers += wanted not in ("[]\n", "null\n")
            if given.returncode != 0 or given.stdout.decode() != wanted:
                failed += 1
                print("%s: status %d, %s for %s" % (" ".join(words), given.returncode, given.stdout[:300], wanted[:300]))
    print("%d queries over one dump of %d entries, %d of them with an answer, %d differ" % (queries, len(lines), answers, failed))
    return failed


def compare(program, queries, seed):
    draw, failed, answers = random.Random(seed), 0, 0
    for n in range(queries):
        lines = any_dump(draw, draw.choice([10, 30, 100, 400, 10_000] if n % 50 == 0 else [10, 30, 100, 400]))
        words = [draw.choice(["definition", "references", "hover"]), "file:///%s" % draw.choice("aab"), str(draw.randrange(4)), str(draw.randrange(6))]
        wanted = text(asked([line.replace("\r", "") for line in "".join(lines).split("\n")], *words)) + "\n"
        given = subprocess.run([program] + words, input="".join(lines).encode(), stdout=subprocess.PIPE)
        answers += wanted not in ("[]\n", "null\n")
        if given.returncode != 0 or given.stdout.decode() != wanted:
            failed += 1
            print("%s: status %d, %s for %s" % (" ".join(words), given.returncode, given.stdout[:300], wanted[:300]))
            with open("/tmp/index-differs-%d.lsif" % n, "w") as file:
                file.writelines(lines)
    print("%d queries, %d of them with an answer, %d differ" % (queries, answers, failed))
    return failed


def main(words):
    if words[:1] == ["--plain"]:
        print(text(asked(sys.stdin, *words[1:])))
    elif words[:1] == ["--compare"]:
        way = compare_large if words[1:2] == ["--large"] else compare
        words = [word for word in words if word != "--large"]
        sys.exit(way(words[1], int((words[2:3] or ["2000"])[0]), int((words[3:4] or ["1"])[0])) != 0)
    elif words == ["--build"]:
        built.build("entries_bench", CRATES, ["lsp_lsif", "lsp_shape"], SOURCE)
    elif words:
        way = instructions if words[0] == "--instructions" else rows
        words = [word for word in words if word != "--instructions"]
        way(words[0], [int(each) for each in words[1:]] or [10_000, 100_000, 1_000_000])
    else:
        sys.exit(__doc__)


if __name__ == "__main__":
    main(sys.argv[1:])
