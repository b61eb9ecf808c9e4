"""Builds the library and the Rust crate into one program, for compare/bench and compare/diff.

Both are built only from this repository, the kit, cargo and the folder of the crate, in another folder. There the library is proved
and built as a static library with C functions for the calls (src/exports.rt.txt).
"""
import argparse
import contextlib
import hashlib
import os
import re
import shutil
import subprocess
import sys
import tempfile
from pathlib import Path
from string import Template

HERE = Path(__file__).resolve().parent
ROOT = HERE.parent
# Nothing can depend on a program, so a copy of its crate is exported, with `exports.rt.txt` in place of `main.rt`.
EXPORTS = "humantime_cli"
CARGO = """[package]
name = "{name}"
edition = "2024"
[[bin]]
name = "{name}"
path = "{here}/src/{name}.rs"
[dependencies]
humantime = {{ path = "{crate}" }}
[workspace]
"""


def options_of(purpose):
    """Returns a parser of the options that both commands have."""
    parser = argparse.ArgumentParser(description=purpose)
    parser.add_argument("crate", type=os.path.abspath, help="the folder of the Rust crate, with its Cargo.toml and its tests")
    parser.add_argument("--work", type=os.path.abspath, help="a folder for the builds, which is kept for the next run")
    return parser


def run(command, folder, **environment):
    """Returns the output of a command. If the command fails, prints the output and exits."""
    done = subprocess.run(command, cwd=folder, env=os.environ | environment, stdout=subprocess.PIPE, stderr=subprocess.STDOUT, text=True)
    if done.returncode != 0:
        sys.exit(f"{' '.join(map(str, command))} failed:\n{done.stdout[-5000:]}")
    return done.stdout


@contextlib.contextmanager
def repository(work):
    """Yields the folder for the builds, with a repository of the library, its exports and the program's `run`."""
    with contextlib.nullcontext(work) if work else tempfile.TemporaryDirectory(ignore_cleanup_errors=True) as top:
        crates = Path(top, "crates")
        crates.mkdir(parents=True, exist_ok=True)
        for name in ("humantime", EXPORTS):
            shutil.rmtree(crates / name, ignore_errors=True)
            # The results of earlier checks are copied too, so that little is proved again.
            run(["cp", "-a", ROOT / "crates" / name, crates], ROOT)
        # The exports replace `main`, and the functions in its file.
        main = crates / EXPORTS / "src" / "main.rt"
        for function in re.findall(r"^fn (\w+)", main.read_text(encoding="utf-8"), re.M):
            shutil.rmtree(crates / EXPORTS / "proofs" / function, ignore_errors=True)
        main.unlink()
        # The functions at its end are written for each row of the table above them.
        shared, end = (HERE / "src/exports.rt.txt").read_text(encoding="utf-8").split("\n//: ", 1)
        table, functions = end.split("\n\n", 1)
        names, *rows = [row.split() for row in table.split("\n//: ")]
        made = [shared, *(Template(functions).substitute(dict(zip(names, row))) for row in rows)]
        main.with_name("lib.rt").write_text("\n".join(made), encoding="utf-8")
        Path(top, "crates.txt").write_text(f"humantime: itoa\n{EXPORTS} staticlib: humantime\n")
        run(["git", "init", "-q", top], ROOT)
        yield Path(top)


def library(top, backend):
    """Returns the folder of the static library."""
    crate = top / "crates" / EXPORTS
    run(["rt", "lib", "--backend", backend], crate)
    made = crate / "out" / f"lib{EXPORTS}.a"
    # Named for its content, since cargo links again only if its flags change.
    folder = top / f"{backend}-{hashlib.sha256(made.read_bytes()).hexdigest()[:16]}"
    folder.mkdir(exist_ok=True)
    shutil.copy(made, folder)
    return folder


def program(top, name, options, folder, **environment):
    """Builds the program of this name in src/, with the crate and the static library in this folder."""
    place = top / name
    place.mkdir(exist_ok=True)
    (place / "Cargo.toml").write_text(CARGO.format(name=name, here=HERE, crate=options.crate))
    # The kit builds for this processor, too.
    flags = f"-C target-cpu=x86-64-v2 -L native={folder} -l static={EXPORTS}"
    run(["cargo", "build", "--release", "--offline"], place, RUSTFLAGS=flags, **environment)
    return place / "target" / "release" / name
