"""What the scripts share: files, copies of the repository, commands, attempts that are kept, `--help`, and a script's last line."""
import os
import re
import shutil
import subprocess
import sys
from hashlib import sha256
from pathlib import Path
from tempfile import TemporaryDirectory

ROOT = Path(__file__).resolve().parent.parent
CRATES = ROOT / "crates"
# Where `./check` has `rt ci` prove and build them.
BUILT = Path(os.environ.get("BUILT", CRATES))
# What each crate stands on; and the crates of the repository below each, which stand above it in crates.txt, with itself.
STANDS_ON = {name: others.split() for name, others in re.findall(r"^(\w+):(.*)", (ROOT / "crates.txt").read_text(encoding="utf-8"), re.M)}
BELOW = {}
for name, others in STANDS_ON.items():
    BELOW[name] = {name}.union(*(BELOW.get(other, ()) for other in others))

if {"--help", "-h"} & set(sys.argv[1:]):
    sys.exit(print(sys.modules["__main__"].__doc__))


def read(*path):
    """Returns the text of a file, whose path begins at the root of the repository."""
    return ROOT.joinpath(*path).read_text(encoding="utf-8")


def write(text, *path):
    """Writes a file, and creates its parent folders."""
    path = Path(*path)
    path.parent.mkdir(parents=True, exist_ok=True)
    path.write_text(text, encoding="utf-8")


def copied(to, crates):
    """Copies what `rt` reads of these crates and of those that they stand on, but no wrong bodies and tests. Returns the new folder."""
    to, crates = Path(to), sorted(set().union(*(BELOW[name] for name in crates)))
    write("".join(f"{name}: {' '.join(STANDS_ON[name])}\n" for name in crates), to, "crates.txt")
    shutil.copy(ROOT / "HANDLES", to)
    for name in crates:
        shutil.copytree(CRATES / name, to / "crates" / name, ignore=shutil.ignore_patterns("must-fail", "out", "tests"))
    return to


def tests_of(crate, folder, old, new):
    """Copies the tests of a crate as the module of this folder, with a text replaced. Their root is `lib.rs`."""
    top, folder = CRATES / crate / "tests", Path(folder)
    for path in top.rglob("*.rs"):
        to = folder.with_suffix(".rt") if path.name == "lib.rs" else folder / path.relative_to(top).with_suffix(".rt")
        write(read(path).replace("#![tactic(auto)]\n", "").replace(old, new), to)


def with_tests(top, crate):
    """Makes the tests of a program a module of its copy."""
    source = Path(top, "crates", crate, "src")
    tests_of(crate, source / "tests_unproved", "crate::support", "crate::tests_unproved::support")
    write(f"{read(source, 'main.rt')}\n#[cfg(test)]\nmod tests_unproved;\n", source, "main.rt")


def run(*command, **options):
    """Runs a command, and captures standard output and standard error as one text."""
    how = {"input": "", "stdout": subprocess.PIPE, "stderr": subprocess.STDOUT, "encoding": "utf-8", "errors": "replace"}
    return subprocess.run(command, **how | options)


def rt(top, crate, *words):
    """Runs `rt` in the folder of a crate."""
    return run("rt", *words, cwd=Path(top, "crates", crate))


def once(crates, attempt, *given):
    """Makes an attempt with a copy of these crates, which returns how many tries it made, and the failures. Returns how many passed, and
    the failures. If all passed on this machine with the same copy, tests, scripts, kit, and values that are given, it is not made again."""
    with TemporaryDirectory(prefix=f"{attempt.__name__}-") as top:
        tests = [path for name in crates for below in BELOW[name] for path in (CRATES / below / "tests").rglob("*")]
        paths = {*copied(top, crates).rglob("*"), *tests, *ROOT.glob("scripts/*.py"), Path(sys.argv[0]).resolve()}
        paths = {str(path).removeprefix(top).removeprefix(str(ROOT)): path for path in paths if path.is_file() and path.suffix != ".md"}
        all_read = sorted((name, path.read_bytes()) for name, path in paths.items())
        key = run("rt", "version").stdout, crates, attempt.__name__, given, all_read
        kept = Path(os.environ.get("XDG_CACHE_HOME") or Path.home() / ".cache", "humantime", sha256(repr(key).encode()).hexdigest())
        tries, failed = (int(kept.read_text()), []) if kept.exists() else attempt(top, *given)
    if not failed:
        write(str(tries), kept)
    return max(tries - len(failed), 0), failed


def builds(crate):
    """Returns the builds of a crate's program, by both back ends, newer than its sources. If there is none, LLVM makes one first."""
    paths = [BUILT / crate / "out" / name for name in (crate, f"{crate}.by-rattle")]
    changed = max(path.stat().st_mtime for name in BELOW[crate] for path in (CRATES / name / "src").rglob("*.rt"))
    made = [str(path) for path in paths if path.exists() and path.stat().st_mtime > changed]
    said = "" if made else rt(ROOT, crate, "run").stdout
    return made or [str(CRATES / crate / "out" / crate)] * (f"rt: running out/{crate};" in said) or sys.exit(f"{crate} was not built: {said[-3000:]}")


def finish(script, passed, failed, reported=""):
    """Prints what failed, what was reported as wanted, and the last line. Exits with status 0 if something passed and nothing failed."""
    said = [f"{script}: {reported} reported, as wanted"] if reported else []
    print(*failed, *said, f"{script}: {passed} passed, {len(failed)} failed", sep="\n")
    sys.exit(1 if failed or not passed else 0)
