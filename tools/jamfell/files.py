"""Files in and out. A name of - is standard input or output."""

import os
import sys
import tempfile

from .decode import cut_frames
from .faults import BadText, Fault
from .from_text import read_text


def read_bytes(path):
    if path == "-":
        return sys.stdin.buffer.read()
    with open(path, "rb") as file:
        return file.read()


def read_words(path):
    """A file's text. The mark that some editors put in front of it is no part of it."""
    data = read_bytes(path)
    try:
        return data.decode("utf-8-sig")
    except UnicodeDecodeError as why:
        raise Fault(f"{path}: byte {why.start}: this is no text; `show` reads files of bytes") from None


def read_blocks(path):
    """The blocks of a file of text, and the text itself."""
    text = read_words(path)
    try:
        return read_text(text), text
    except BadText as why:
        raise Fault(f"{path}: {why}") from None


def read_attempts(path, names, as_bytes=False):
    """The bytes of each attempt of a file. The names in its text are learnt. Bytes have none."""
    if as_bytes:
        frames, fault = cut_frames(read_bytes(path))
        if fault:
            raise Fault(f"{path}: {fault}")
        return [attempt for _, attempt in frames]
    blocks, text = read_blocks(path)
    for header, line, _ in blocks:
        if not header.startswith("attempt "):
            raise Fault(f"{path}: line {line}: here attempts are wanted, and this is '{header}'")
    names.learn(text)
    return [attempt for _, _, attempt in blocks]


def write_bytes(path, data):
    if path == "-":
        sys.stdout.buffer.write(data)
        return
    with open(path, "wb") as file:
        file.write(data)


def write_new(path, data):
    try:
        with open(path, "xb") as file:
            file.write(data)
    except FileExistsError:
        raise Fault(f"{path}: it is there already, and is left as it is") from None


def replace_bytes(path, data):
    """Puts other bytes in a file's place. Whatever happens, the file has all of the old or all of the new."""
    place = os.path.realpath(path)
    number, other = tempfile.mkstemp(dir=os.path.dirname(place), prefix=f".{os.path.basename(place)}.")
    try:
        with os.fdopen(number, "wb") as file:
            file.write(data)
            file.flush()
            os.fsync(file.fileno())
        os.chmod(other, os.stat(place).st_mode & 0o7777)
        os.replace(other, place)
    except BaseException:
        os.unlink(other)
        raise
