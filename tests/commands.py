"""Commands that tests run in the repository; what a command says is told where it fails."""

import fcntl
import os
import shutil
import subprocess
from pathlib import Path

ROOT = Path(__file__).resolve().parent.parent
# For any x86-64: the kit compiles for x86-64-v2 otherwise.
ANY = "--cpu=x86-64"


def run(*words, cwd=ROOT) -> None:
    done = subprocess.run(words, cwd=cwd, stdin=subprocess.DEVNULL, capture_output=True, text=True)
    if done.returncode != 0:
        raise AssertionError(f"{words[0]} failed:\n{done.stdout[-4000:]}\n{done.stderr[-4000:]}")


def rt(*words, cwd=ROOT) -> None:
    """`rt`, one at a time: the tests run in two processes, and every `rt` writes the same files under crates/*/out/."""
    with open(ROOT / "crates.txt", encoding="utf-8") as held:
        fcntl.flock(held, fcntl.LOCK_EX)
        run("rt", *words, cwd=cwd)


def program(name: str) -> None:
    """Proves and builds a program, and copies it to target/bin. `rt run` builds it only where it is proved, and runs it.

    In the gate `rt ci` has just proved and built it (run.sh says so).
    """
    if "BUILT_BY_CI" not in os.environ:
        rt("run", name, ANY, cwd=ROOT / "crates" / name)
    copied(ROOT / "crates" / name / "out" / name, ROOT / "target" / "bin" / name)


def archive(name: str) -> None:
    """Proves and builds the static library of a library's calls for C, and copies it to target/staticlib under the library's name."""
    folder = ROOT / "crates" / f"{name}_c"
    rt("lib", f"{name}_c", ANY, cwd=folder)
    copied(folder / "out" / f"lib{name}_c.a", ROOT / "target" / "staticlib" / f"lib{name}.a")


def copied(made: Path, place: Path) -> None:
    """In one step, since the other process may be using it."""
    place.parent.mkdir(parents=True, exist_ok=True)
    part = place.with_name(f"{place.name}.{os.getpid()}")
    shutil.copy(made, part)
    part.replace(place)
