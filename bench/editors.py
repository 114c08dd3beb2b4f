#!/usr/bin/env python3
"""Types into Neovim and into Emacs with Eglot, and compares what docs/text gives with the editor's buffer.

Each editor that is installed makes random edits in a file, of letters inside and outside the basic plane, of lines and of
whole words; after every tenth it asks for the text.

Usage: bench/editors.py [SERVER] [EDITS] [SEED]     (default: ./lsp_docs 500 1)
"""
import os
import shutil
import subprocess
import sys
import tempfile

HERE = os.path.dirname(os.path.realpath(__file__))
TEXT = "erste Zeile\nzwei 😀 漢字\n\n  dritte\n"


def main():
    server = os.path.realpath(sys.argv[1] if len(sys.argv) > 1 else os.path.join(os.path.dirname(HERE), "lsp_docs"))
    edits, seed = (sys.argv[2:] + ["500", "1"][len(sys.argv[2:]):])[:2]
    command = server if os.path.basename(server) == "lsp_docs" else server + " docs"
    failed = 0
    for name, words in (
        ("nvim", ["nvim", "--clean", "--headless", "-n", "-S", os.path.join(HERE, "editors.lua")]),
        ("emacs", ["emacs", "-q", "--batch", "-l", os.path.join(HERE, "editors.el")]),
    ):
        if not shutil.which(name):
            print(f"{name} isn't installed")
            continue
        for eol in ("\n", "\r\n"):
            with tempfile.TemporaryDirectory() as folder:
                path = os.path.join(folder, "a.txt")
                with open(path, "w", encoding="utf-8", newline="") as file:
                    file.write(TEXT.replace("\n", eol))
                given = {"SERVER": command, "COUNT": edits, "SEED": seed, "FILE": path}
                ran = subprocess.run(words + ([path] if name == "nvim" else []), cwd=folder, env={**os.environ, **given})
                failed += ran.returncode != 0
    return 1 if failed else 0


sys.exit(main())
