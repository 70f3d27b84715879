"""A program beside the same job in plain Rust: the same output, and what both cost.

    bench/plain.sh [--files] [--count] [--runs N] [PROGRAM]
    bench/world.sh [--files] [--count] [--runs N] [PROGRAM]
    bench/finish.sh [--files] [--count] [--runs N] [PROGRAM]

PROGRAM is crates/plain/out/plain, crates/world/out/world or crates/finish/out/finish if not said.
Both programs get no input and a busy file of 1,000 lines, in turn, N times (500 if not said); the
least time of each counts, since other work on the machine only adds. The lines themselves are the
difference of the two inputs: without the start of the process. --count adds instructions, counted
by valgrind, which other work does not change. --files first holds both to the reference on every
file of the crate of cases. At the end stands what one line of 1 byte and one of 1,000,000,000 bytes
take."""
import argparse
import importlib
import os
import re
import subprocess
import sys
import tempfile
import time

sys.dont_write_bytecode = True
ROOT = os.path.dirname(os.path.dirname(os.path.abspath(__file__)))
sys.path.insert(0, os.path.join(ROOT, "tests"))
from plain_log import read_file

RUSTC = [
    "rustc",
    "--edition",
    "2021",
    "-C",
    "opt-level=3",
    "-C",
    "codegen-units=1",
    "-D",
    "warnings",
]
PIECE = bytes(1 << 20)


def spawned(words, given):
    """A process with that file as its input and no output."""
    actions = [
        (os.POSIX_SPAWN_OPEN, 0, given, os.O_RDONLY, 0),
        (os.POSIX_SPAWN_OPEN, 1, os.devnull, os.O_WRONLY, 0),
    ]
    return os.posix_spawn(words[0], words, os.environ, file_actions=actions)


def milliseconds(program, given):
    start = time.perf_counter()
    _, status = os.waitpid(spawned([program], given), 0)
    assert status == 0, "%s ended with %d" % (program, status)
    return (time.perf_counter() - start) * 1e3


def least_times(programs, inputs, runs):
    """By input and program; all in turn, and the order turned round each time."""
    least = {(given, program): float("inf") for given in inputs for program in programs}
    for run in range(runs):
        for given in inputs:
            for program in programs[:: 1 if run % 2 else -1]:
                least[given, program] = min(least[given, program], milliseconds(program, given))
    return least


def instructions(program, given):
    words = ["valgrind", "--tool=callgrind", "--callgrind-out-file=/dev/null", program]
    with open(given, "rb") as steps:
        done = subprocess.run(words, stdin=steps, stdout=subprocess.DEVNULL, stderr=subprocess.PIPE)
    return int(re.search(rb"Collected : (\d+)", done.stderr).group(1))


def cells(cost, inputs, programs, form):
    """Of each row what both programs cost, and the ratio."""
    rows = [[cost[given, program] for program in programs] for given in inputs]
    rows.append([busy - none for none, busy in zip(*rows)])
    return [[form % ours, form % rust, "%.2f" % (ours / rust)] for ours, rust in rows]


def table(name, programs, inputs, options):
    headings = ["input", name + ", ms", "plain Rust, ms", "ratio"]
    columns = [cells(least_times(programs, inputs, options.runs), inputs, programs, "%.3f")]
    if options.count:
        headings += [name + ", instructions", "plain Rust, instructions", "ratio"]
        counted = {
            (given, program): instructions(program, given)
            for given in inputs
            for program in programs
        }
        columns.append(cells(counted, inputs, programs, "%d"))
    print("| %s |\n|---%s|" % (" | ".join(headings), "|---:" * (len(headings) - 1)))
    for row in zip(["no input", "the busy file", "the lines themselves"], *columns):
        print("| %s |" % " | ".join([row[0]] + [cell for part in row[1:] for cell in part]))


def same_output(reference, programs, files):
    for path in files:
        wanted = reference.run(read_file(path))
        for program in programs:
            with open(path, "rb") as steps:
                printed = subprocess.run([program], stdin=steps, stdout=subprocess.PIPE).stdout
            if printed != wanted:
                sys.exit("%s prints something else than the reference for %s" % (program, path))
    print("both print what the reference does: %d files" % len(files))


def long_line(program, size):
    form = "%e s, at most %M KB resident"
    process = subprocess.Popen(
        ["/usr/bin/time", "-f", form, program],
        stdin=subprocess.PIPE,
        stdout=subprocess.DEVNULL,
        stderr=subprocess.PIPE,
    )
    for _ in range(size // len(PIECE)):
        process.stdin.write(PIECE)
    process.stdin.write(PIECE[: size % len(PIECE)])
    print("one line of %d bytes: %s" % (size, process.communicate()[1].decode().strip()))


def inputs_in(work, name):
    paths = [os.path.join(work, given) for given in ("none", "busy")]
    for path, data in zip(paths, (b"", importlib.import_module("busy_" + name).data())):
        with open(path, "wb") as file:
            file.write(data)
    return paths


def main(name, words):
    parser = argparse.ArgumentParser(
        prog="bench/%s.sh" % name,
        description=__doc__,
        formatter_class=argparse.RawDescriptionHelpFormatter,
    )
    built = os.path.join(ROOT, "crates", name, "out", name)
    parser.add_argument("program", nargs="?", default=built)
    parser.add_argument("--files", action="store_true")
    parser.add_argument("--count", action="store_true")
    parser.add_argument("--runs", type=int, default=500)
    options = parser.parse_args(words)
    program = os.path.abspath(options.program)
    if not os.access(program, os.X_OK):
        sys.exit("%s is not built: rt run in crates/%s" % (program, name))
    with tempfile.TemporaryDirectory() as work:
        programs = [program, os.path.join(work, "rust")]
        subprocess.run(
            [*RUSTC, "-o", programs[1], os.path.join(ROOT, "bench", name + ".rs")], check=True
        )
        inputs = inputs_in(work, name)
        cases = os.path.join(ROOT, "crates", name + "_cases", "data")
        files = (
            [os.path.join(cases, case) for case in sorted(os.listdir(cases))]
            if options.files
            else []
        )
        same_output(importlib.import_module(name + "_reference"), programs, inputs + files)
        table(name, programs, inputs, options)
    print("the least of %d runs, in turn; load %.1f" % (options.runs, os.getloadavg()[0]))
    for size in (1, 1000000000):
        long_line(program, size)


if __name__ == "__main__":
    main(sys.argv[1], sys.argv[2:])
