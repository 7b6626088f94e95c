"""Runs the proved program, and looks whether its names are those that are proved."""
import errno
import itertools
import os
import shutil
import subprocess

from number_parts.table import Fault

# Where the tool stands.
HERE = os.path.dirname(os.path.dirname(os.path.realpath(__file__)))
# How a list of grants begins.
HEADER = b"epoch,client,name\n"


def program() -> str:
    """Returns the path of the program: among the sources that of the script that builds it, else of what stands beside
    this tool or in the package for Python, else what is on the path."""
    beside = (os.path.join(HERE, *parts, "renamer") for parts in (("..",), ("..", "..", "bin"), ("renamer", "bin")))
    found = next(filter(os.path.isfile, beside), None)
    return os.environ.get("RENAMER") or found or shutil.which("renamer") or "renamer"


def granted(batch: bytes) -> bytes:
    """Returns what the program prints for a batch."""
    words = [program(), "run", "--network", "tree", "--width", "2", "--form", "grants", "--large"]
    try:
        done = subprocess.run(words, input=batch, stdout=subprocess.PIPE)
    except OSError as fault:
        lacks_room = fault.errno in (errno.ENOMEM, errno.EAGAIN)
        raise Fault(3 if lacks_room else 70, f"the program {words[0]} cannot be run: {fault.strerror}") from fault
    if done.returncode:
        raise Fault(70 if done.returncode == 70 else 3, f"the program {words[0]} ended with status {done.returncode}")
    return done.stdout


def lines(form: bytes, epoch: int, count: int):
    """Yields the lines of so many clients of an epoch, a thousand at a time. A form is a line with E for the epoch and N
    for each number from 0 up."""
    form = form.replace(b"E", b"%d" % epoch)
    yield b"".join([form.replace(b"N", b"%d" % number) for number in range(min(count, 1000))])
    if count > 1000:
        # Each thousand differs from the others in how its numbers begin.
        thousand = b"".join([form.replace(b"N", b"N%03d" % last) for last in range(1000)])
        for first in range(1000, count, 1000):
            text = thousand.replace(b"N", b"%d" % (first // 1000))
            yield text[:len(text) // 1000 * (count - first)]


def confirm(epochs: list[int]):
    """Lets the program name the clients 0 and up of epochs of so many. Raises Fault unless it gives them the names 0
    and up, in their order: that it does is proved."""
    def of_all(form: bytes):
        return itertools.chain.from_iterable(lines(form, *epoch) for epoch in enumerate(epochs))

    grants, at = granted(b"epoch,client\n" + b"".join(of_all(b"E,N\n"))), 0
    for text in itertools.chain([HEADER], of_all(b"E,N,N\n")):
        if not grants.startswith(text, at):
            break
        at += len(text)
    else:
        if at == len(grants):
            return
    raise Fault(3, "the program gave other names than 0 and up, in the order of the ids")
