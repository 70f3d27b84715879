"""The files of a crate of test cases, as its maker says they are: written, or compared with those
in the tree."""
import os
import sys

from plain_log import read_file


def step_files(where, made, run):
    """Of a crate that runs the step files named in args: those in data/ that end in .steps (shared
    vectors), then the made ones."""
    data = os.path.join(where, "data")
    shared = {
        name: read_file(os.path.join(data, name))
        for name in sorted(os.listdir(data))
        if name.endswith(".steps")
    }
    every = {**shared, **made}
    files = {os.path.join("data", name): steps for name, steps in made.items()}
    files["args"] = "".join(name + "\n" for name in every).encode()
    files["stdout"] = b"".join(name.encode() + b"\n" + run(steps) for name, steps in every.items())
    return files


def differing(where, files):
    """The files that are not in the tree as they were made."""

    def same(name, want):
        path = os.path.join(where, name)
        return os.path.isfile(path) and read_file(path) == want

    return [name for name, want in files.items() if not same(name, want)]


def write(where, files):
    for name, data in files.items():
        with open(os.path.join(where, name), "wb") as file:
            file.write(data)


def main(files_of):
    """`NAME WHERE` writes the files of the crate's folder WHERE."""
    if len(sys.argv) != 2:
        sys.exit("usage: %s FOLDER" % sys.argv[0])
    write(sys.argv[1], files_of(sys.argv[1]))
