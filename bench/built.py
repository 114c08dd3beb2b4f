"""Builds a program that no crate of the repository has, into bench/out.

It is made in a temporary folder, beside copies of the crates that it stands on, and built with `rt run`,
which proves those that this checkout hasn't built as they stand.
"""
import os
import shutil
import subprocess
import tempfile

from measured import ROOT

OUT = os.path.join(ROOT, "bench", "out")


def copy_crates(folder, crates):
    """Copies the crates, and what crates.txt says of them."""
    shutil.copy(os.path.join(ROOT, "HANDLES"), folder)
    for name in crates:
        for part in ("src", "specs", "proofs", "out/rlib"):
            path = os.path.join("crates", name, part)
            if os.path.exists(os.path.join(ROOT, path)):
                shutil.copytree(os.path.join(ROOT, path), os.path.join(folder, path))
    with open(os.path.join(ROOT, "crates.txt")) as file:
        lines = [line for line in file if line.split(":")[0] in crates]
    with open(os.path.join(folder, "crates.txt"), "w") as out:
        out.writelines(lines)


def build(name, crates, needs, source, *words):
    """Builds the program of this source and tries it with the words. `crates` are those of the repository that
    are below it, and `needs` what it names."""
    with tempfile.TemporaryDirectory() as folder:
        copy_crates(folder, crates)
        with open(os.path.join(folder, "crates.txt"), "a") as out:
            out.write("%s: %s\n" % (name, " ".join(needs)))
        crate = os.path.join(folder, "crates", name)
        os.makedirs(os.path.join(crate, "src"))
        with open(os.path.join(crate, "src", "main.rt"), "w") as out:
            out.write(source)
        subprocess.run(["rt", "run", "--", *words], cwd=crate, check=True, stdin=subprocess.DEVNULL,
                       stdout=subprocess.DEVNULL)
        os.makedirs(OUT, exist_ok=True)
        shutil.copy(os.path.join(crate, "out", name), OUT)
