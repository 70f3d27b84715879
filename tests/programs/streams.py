"""Running a program with its input in pieces, and its output where it may not be taken."""
import fcntl
import os
import struct
import subprocess
import tempfile
import termios
import time

UNREAD = b"\0" * 4


def from_file(program, data):
    with tempfile.TemporaryFile() as steps:
        steps.write(data)
        steps.seek(0)
        return subprocess.run([program], stdin=steps, stdout=subprocess.PIPE, check=True).stdout


def drained(pipe, process):
    """Waits until the program has read all that was written, so that the next piece is another."""
    while process.poll() is None:
        if struct.unpack("i", fcntl.ioctl(pipe, termios.FIONREAD, UNREAD))[0] == 0:
            return
        time.sleep(0)


def fed(program, data, first, then=None):
    """In pieces, the first of one length and the others of another; each is read before the next is
    written. The program may end before it has read all."""
    with subprocess.Popen(
        [program], stdin=subprocess.PIPE, stdout=subprocess.PIPE, bufsize=0
    ) as process:
        at, length = 0, first
        try:
            while at < len(data):
                process.stdin.write(data[at : at + length])
                drained(process.stdin, process)
                at, length = at + length, then or first
            process.stdin.close()
        except BrokenPipeError:
            pass
        return process.stdout.read()


def slowly_read(program, data):
    """Standard output is a pipe with room for a page, whose reader waits before each page."""
    read, write = os.pipe()
    fcntl.fcntl(write, fcntl.F_SETPIPE_SZ, 4096)
    with tempfile.TemporaryFile() as steps:
        steps.write(data)
        steps.seek(0)
        process = subprocess.Popen([program], stdin=steps, stdout=write)
        os.close(write)
        pages = []
        while not pages or pages[-1]:
            time.sleep(0.001)
            pages.append(os.read(read, 4096))
        os.close(read)
        process.wait()
    return b"".join(pages)


def failing(program, data):
    """The status and standard error where standard output takes nothing."""
    with open("/dev/full", "wb") as full:
        run = subprocess.run([program], input=data, stdout=full, stderr=subprocess.PIPE)
    return run.returncode, run.stderr


def closed(program, data):
    """The same where nobody reads standard output."""
    read, write = os.pipe()
    os.close(read)
    run = subprocess.run([program], input=data, stdout=write, stderr=subprocess.PIPE)
    os.close(write)
    return run.returncode, run.stderr
