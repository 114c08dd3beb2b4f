#!/usr/bin/env python3
"""Counts the functions that one `echo` passes through, by the source, crate by crate, and names them.

An editor sends echoes one at a time and waits for each reply, to a sample server that was compiled so that nothing
is inlined. callgrind tells which functions are called once more for each echo more. Those of the session's crates
count; what the compilers make (drops, closures, constructors as functions) doesn't.

    cd crates/lsp_sample && rt run --backend rattle --opt-level 0 </dev/null; cp out/lsp_sample /tmp/plain

Usage: bench/hops.py PROGRAM [--all]     (valgrind has to be on the path; --all: those of every crate of ours)
"""
import collections
import re
import subprocess
import sys
import tempfile

import sessions

CRATES = "rpc", "text", "frame", "keyed", "desk", "session", "server"
MADE = re.compile(r"Destruct|::call_once|::call_mut|::fn::|'\d+$")
FEW, MANY = 20, 60


def read_frame(stream):
    """Reads one frame."""
    size = 0
    while line := stream.readline().strip():
        if line.lower().startswith(b"content-length:"):
            size = int(line.split(b":")[1])
    return stream.read(size)


def called(program, count):
    """How often each function is called in a session of so many echoes."""
    with tempfile.NamedTemporaryFile("r", errors="replace") as told:
        words = ["valgrind", "--tool=callgrind", "--compress-strings=no", "--compress-pos=no"]
        server = subprocess.Popen([*words, "--callgrind-out-file=" + told.name, program],
                                  stdin=subprocess.PIPE, stdout=subprocess.PIPE, stderr=subprocess.DEVNULL)

        def send(body):
            server.stdin.write(sessions.frame(body))
            server.stdin.flush()
        send(sessions.INITIALIZE)
        read_frame(server.stdout)
        send(sessions.INITIALIZED)
        for number in range(1, count + 1):
            send(sessions.echo(number))
            while b'"id":%d}' % number not in read_frame(server.stdout):
                pass
        send(sessions.SHUTDOWN)
        send(sessions.EXIT)
        server.stdin.close()
        server.stdout.read()
        if server.wait():
            sys.exit("hops: %s ended with status %d" % (program, server.returncode))
        calls, name = collections.Counter(), None
        for line in told:
            if line.startswith("cfn="):
                name = line[4:].strip()
            elif line.startswith("calls="):
                calls[name] += int(line[6:].split()[0])
        return calls


def main():
    words = [word for word in sys.argv[1:] if word != "--all"]
    if len(words) != 1:
        sys.exit(__doc__)
    few, many = called(words[0], FEW), called(words[0], MANY)
    often = [name for name in many if many[name] - few[name] >= MANY - FEW]
    ours = {re.sub(r"::<.*", "", name) for name in often if name.startswith("lsp_")}
    ours = {name for name in ours if not MADE.search(name)}
    crates = collections.defaultdict(list)
    for name in sorted(ours):
        crate, _, rest = name.partition("::")
        if "--all" in sys.argv or crate[4:] in CRATES:
            crates[crate].append(rest)
    for crate, names in crates.items():
        print("%-12s %3d  %s" % (crate, len(names), " ".join(names)))
    print("%-12s %3d" % ("(all)", sum(map(len, crates.values()))))


if __name__ == "__main__":
    main()
