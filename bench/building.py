"""What the benchmarks share: the processor whose code they measure, and C and proved code built for it.

ARCH says which (aarch64 or x86_64); without it, this machine's own. OPTIMIZE, s or z, says that the library is to be small in the place
of fast.
"""
import functools
import os
import pathlib
import re
import shutil
import subprocess
import sys

ROOT = pathlib.Path(__file__).resolve().parent.parent
PROCESSOR = ROOT / "tools" / "processor"
MODULE = ROOT / "tools" / "module"
GP2 = ROOT / "second" / "target" / "release" / "gp2"
WARNINGS = ["-std=c11", "-Wall", "-Wextra", "-Werror"]


def run(words, **more):
    """What a command prints. It is run at the top of the repository; where it fails, so does the benchmark."""
    done = subprocess.run([str(word) for word in words], stdout=subprocess.PIPE, text=True, cwd=ROOT, **more)
    if done.returncode:
        sys.exit(done.returncode)
    return done.stdout


ARCH = run([PROCESSOR, "chosen"]).strip()
WORK = ROOT / "target" / "bench" / ARCH
# compiled to be fast, or by OPTIMIZE, s or z, to be small
OPTIMIZED = {"s": "-Os", "z": "-Oz"}.get(os.environ.get("OPTIMIZE", ""), "")
LIBRARY = ROOT / "target" / "library" / f"{ARCH}{OPTIMIZED}" / "libnhiemavut.a"
CODE = run([PROCESSOR, "code", ARCH]).strip() + (f" at {OPTIMIZED}" if OPTIMIZED else "")


def ready(*goals):
    """Makes what a benchmark rests on, if programs for ARCH can be compiled and started here; else says what is missing."""
    if subprocess.run([PROCESSOR, "has", ARCH]).returncode:
        sys.exit("bench: skipped")
    WORK.mkdir(parents=True, exist_ok=True)
    run(["make", "--no-print-directory", f"ARCH={ARCH}", *goals])


@functools.cache
def emulator():
    return run([PROCESSOR, "emulator", ARCH]).split()


def started(program):
    """The words that start a program."""
    return [*emulator(), str(program)]


def gcc(name, words):
    """A program, by gcc at -O2."""
    run([PROCESSOR, "cc", ARCH, *WARNINGS, "-O2", "-static", *words, "-o", WORK / name])
    return WORK / name


def clang_object(name, words):
    """An object, by the kit's compiler at the level at which rt compiles proved code."""
    run([PROCESSOR, "clang", ARCH, *WARNINGS, "-O3", *words, "-o", WORK / name])
    return WORK / name


def proved_program(name):
    """A program of the repository, as the kit compiles it."""
    ready(f"target/checked/{ARCH}/{name}.done")
    run([MODULE, "object", name, ARCH, WORK / f"{name}.o"])
    run([MODULE, "link", name, ARCH, WORK / f"{name}.o", WORK / name])
    return WORK / name


def counts_here():
    """Says so and ends where instructions can't be counted here."""
    if run([PROCESSOR, "own"]).strip() != ARCH:
        sys.exit("bench: valgrind runs this machine's own code alone")
    if not shutil.which("valgrind"):
        sys.exit("bench: valgrind is missing (Debian: valgrind)")


def counted(words, options=(), **more):
    """What a command prints, in bytes, and the instructions that it takes, which valgrind counts and which are the same each time."""
    counting = ["valgrind", "--tool=callgrind", "--callgrind-out-file=/dev/null", *options, *map(str, words)]
    done = subprocess.run(counting, capture_output=True, cwd=ROOT, **more)
    count = re.search(rb"Collected : (\d+)", done.stderr)
    if done.returncode or not count:
        sys.exit(f"bench: valgrind counts nothing of {words}:\n{done.stderr.decode()}")
    return done.stdout, int(count[1])
