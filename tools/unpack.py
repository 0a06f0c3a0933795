"""Unpacks a recording piece by piece, as its bytes come, where its first bytes say that it is packed."""

import importlib
import itertools
import os
import shutil
import subprocess
import threading

CHUNK = 1 << 16
PACKED = [
    (b"\x1f\x8b", "gzip"),
    (b"\xfd7zXZ\x00", "xz"),
    (b"BZh", "bzip2"),
    (b"\x28\xb5\x2f\xfd", "zstd"),
    (b"PK\x03\x04", "zip"),
]


class Unfit(Exception):
    """What is wrong with a file."""


class Gzip:
    """zlib's unpacker, with the names of those of xz and bzip2."""

    def __init__(self):
        self.stream = importlib.import_module("zlib").decompressobj(31)
        self.needs_input = True

    def decompress(self, data, most):
        piece = self.stream.decompress(self.stream.unconsumed_tail + data, most)
        self.needs_input = not self.stream.unconsumed_tail and len(piece) < most
        return piece

    @property
    def eof(self):
        return self.stream.eof

    @property
    def unused_data(self):
        return self.stream.unused_data


OPENS = {
    "gzip": Gzip,
    "xz": lambda: importlib.import_module("lzma").LZMADecompressor(),
    "bzip2": lambda: importlib.import_module("bz2").BZ2Decompressor(),
}


def opened(name):
    try:
        return OPENS[name]()
    except ImportError as e:
        raise Unfit(f"the file is packed with {name}, and this python3 can't unpack that: unpack it first") from e


def unpacked(name, stream, data):
    try:
        return stream.decompress(data, CHUNK)
    except Exception as e:
        raise Unfit(f"the file is packed with {name}, and damaged: {e}") from e


def unpack(name, chunks):
    """Streams one behind the other, as these programs write them; zeros between them are passed over."""
    stream, between = opened(name), False
    for data in chunks:
        data = data.lstrip(b"\0") if between else data
        while data:
            between = False
            yield unpacked(name, stream, data)
            while not stream.eof and not stream.needs_input:
                yield unpacked(name, stream, b"")
            if not stream.eof:
                break
            data = stream.unused_data.lstrip(b"\0")
            stream, between = opened(name), True
    if not between:
        raise Unfit(f"the file is packed with {name}, and ends too soon")


def write_all(fd, data):
    while data:
        data = data[os.write(fd, data) :]


def chunks_of(fd):
    while data := os.read(fd, CHUNK):
        yield data


def unzstd(chunks):
    """Through the program zstd, since python3 has no module for it."""
    if not shutil.which("zstd"):
        raise Unfit("the file is packed with zstd, and there is no program zstd here: install it, or unpack the file first")
    program = subprocess.Popen(
        ["zstd", "-dcq"], stdin=subprocess.PIPE, stdout=subprocess.PIPE, stderr=subprocess.PIPE, bufsize=0
    )
    failures = []

    def feed():
        try:
            with program.stdin:
                for data in chunks:
                    write_all(program.stdin.fileno(), data)
        except BrokenPipeError:
            pass
        except OSError as e:
            failures.append(e)

    threading.Thread(target=feed, daemon=True).start()
    yield from chunks_of(program.stdout.fileno())
    said = program.stderr.read().decode(errors="replace").strip()
    if program.wait() != 0:
        raise Unfit(f"the file is packed with zstd, and damaged: {said}")
    if failures:
        raise failures[0]


def at_least(size, chunks):
    """So many bytes, or all that there are; and the chunks again from the start."""
    start = b""
    while len(start) < size and (data := next(chunks, None)) is not None:
        start += data
    return start, itertools.chain([start] if start else [], chunks)


def recording(chunks):
    """The recording's bytes in pieces, and what it is packed with, if it is."""
    start, chunks = at_least(6, chunks)
    for sign, name in PACKED:
        if start.startswith(sign):
            if name == "zip":
                raise Unfit("the file is packed with zip: unpack it first")
            return (unzstd(chunks) if name == "zstd" else unpack(name, chunks)), name
    return chunks, None
