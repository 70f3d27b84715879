"""A program that is given a step file, or a reference in its place."""
import os
import subprocess
import sys

SECONDS = 30  # a program has for a file


class Reference:
    """What the program prints, by a function within this process."""

    def __init__(self, run):
        self.run = run

    def start(self, data):
        return lambda: self.run(data)


class Program:
    """A process a file, since the program reads one input; its bytes go through memory."""

    def __init__(self, path):
        self.path = os.path.abspath(path)

    def start(self, data):
        given, printed = os.memfd_create("given"), os.memfd_create("printed")
        os.write(given, data)
        os.lseek(given, 0, os.SEEK_SET)
        process = subprocess.Popen([self.path], stdin=given, stdout=printed)
        os.close(given)
        return lambda: self.ended(process, printed)

    def ended(self, process, printed):
        try:
            code = process.wait(SECONDS)
            os.lseek(printed, 0, os.SEEK_SET)
            with os.fdopen(printed, "rb") as file:
                return file.read() + (b"exit code %d\n" % code if code else b"")
        except subprocess.TimeoutExpired:
            process.kill()
            process.wait()
            return b"no end within %d seconds\n" % SECONDS


def program(name, reference):
    """The program of that path; for the word `reference` the reference that runs so."""
    if name != "reference" and not os.access(name, os.X_OK):
        sys.exit("%s: %s is no program" % (os.path.basename(sys.argv[0]), name))
    return Reference(reference) if name == "reference" else Program(name)
