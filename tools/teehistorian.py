"""teehistorian.py PROGRAM FILE [TICK [STEP]]: takes a .teehistorian file apart and feeds its body to PROGRAM, which is replay, ladder or rewind.
Only rewind has a TICK and may have a STEP, which it is started with.

The file is the magic of 16 bytes, a JSON header that ends with a byte 00, and the body; unpack.py unpacks it where it is packed. The
header's "version", a string, says which version of the format the body has. Nothing else of the header is looked at.
Bytes are fed as they come and lines passed on as they come. tools/replay says what each status means.
"""

import json
import os
import re
import subprocess
import sys
import threading

from unpack import CHUNK, Unfit, at_least, chunks_of, recording, write_all

MAGIC = bytes.fromhex("699db17b8efb34ffb1d8da6f60c15dd1")
# A header is some kilobytes; what has no 00 in this many bytes is no header.
LONGEST_HEADER = 64 << 20
LAST = [(b"finish", 0), (b"ended", 0), (b"refused", 3), (b"too long", 4)]
# What is printed last of a body that only ends too soon: by replay and ladder, and by rewind.
CUT = (b"refused 3\n", b"refused 18\n")
NO_LAST_LINE = 1
WITH_TICK = "rewind"
LARGEST = 2147483647


def check_magic(start):
    if start[: len(MAGIC)] == MAGIC:
        return
    if not start:
        raise Unfit("the file is empty")
    if len(start) < len(MAGIC) and MAGIC.startswith(start):
        raise Unfit(f"the file ends after {len(start)} bytes, inside the magic of {len(MAGIC)}")
    raise Unfit("not a teehistorian file: it does not begin with the magic 699db17b-8efb-34ff-b1d8-da6f60c15dd1")


def split_header(chunks):
    """The header's bytes, and the bytes of the body that came with them."""
    start, chunks = at_least(len(MAGIC), chunks)
    check_magic(start)
    header = bytearray()
    for data in chunks:
        end = data.find(0, 0 if header else len(MAGIC))
        if end >= 0:
            return bytes(header + data[:end])[len(MAGIC) :], data[end + 1 :]
        header += data
        if len(header) > LONGEST_HEADER:
            raise Unfit(f"no byte 00 ends the JSON header within {LONGEST_HEADER >> 20} MiB")
    raise Unfit("the file ends inside the JSON header: no byte 00 ends it")


def version_of(header):
    try:
        text = header.decode("utf-8")
    except UnicodeDecodeError as e:
        raise Unfit(f"the header is not UTF-8: {e.reason} at byte {e.start} of it") from e
    try:
        fields = json.loads(text)
    except RecursionError as e:
        raise Unfit("the header is not JSON that can be read: it is nested too deeply") from e
    except ValueError as e:
        raise Unfit(f"the header is not JSON: {e}") from e
    if not isinstance(fields, dict):
        raise Unfit("the header is JSON, but no object")
    if "version" not in fields:
        raise Unfit('the header has no "version"')
    version = fields["version"]
    if not isinstance(version, str) or not re.fullmatch(r"[+-]?[0-9]+", version, re.ASCII):
        raise Unfit(f'the header\'s "version" is {json.dumps(version)[:60]}, not a string that holds a number')
    number = version.lstrip("+").lstrip("0")
    if number not in ("1", "2"):
        raise Unfit(f"the recording has version {version[:60]}; only versions 1 and 2 can be read")
    return int(number)


class Feeder(threading.Thread):
    """Writes the version byte and the body to the program, piece by piece. The program may end before it has read everything; what is
    packed is then unpacked to its end all the same, since damage shows there."""

    def __init__(self, pipe, start, chunks, packed):
        super().__init__(daemon=True)
        self.pipe, self.start_bytes, self.chunks, self.packed = pipe, start, chunks, packed
        self.failure = None

    def run(self):
        try:
            self.feed()
        except (OSError, Unfit) as e:
            self.failure = e
        finally:
            self.pipe.close()

    def feed(self):
        try:
            write_all(self.pipe.fileno(), self.start_bytes)
            for data in self.chunks:
                write_all(self.pipe.fileno(), data)
        except BrokenPipeError:
            if self.packed:
                for data in self.chunks:
                    pass


class Unwritten(Exception):
    """Why a line could not be printed."""


def print_text(text):
    try:
        write_all(1, text)
    except BrokenPipeError:
        raise
    except OSError as e:
        raise Unwritten(e.strerror) from e


def may_be_last(line):
    return any(line.startswith(word) or word.startswith(line) for word, status in LAST)


def pass_lines(source):
    """Passes lines on as they come, but for a last line, which is the answer."""
    held = b""
    while data := os.read(source, CHUNK):
        text = held + data
        cut = text.rfind(b"\n", 0, -1) + 1
        held = text[cut:] if may_be_last(text[cut:]) else b""
        print_text(text[: len(text) - len(held)])
    return held


def pass_on(program, feeder):
    """The status; what is printed is the program's lines. A last line that says only that the bytes ended, where in truth they could not be
    read on, is not printed."""
    feeder.start()
    last = pass_lines(program.stdout.fileno())
    status = program.wait()
    if feeder.packed:
        feeder.join()
    if not (feeder.failure and last in CUT):
        print_text(last)
    if feeder.failure:
        raise feeder.failure
    if status != 0:
        raise Unfit(f"the program ended with status {status}")
    return next((n for word, n in LAST if last.startswith(word)), NO_LAST_LINE)


def body_of(fd):
    """The version byte and the first bytes of a recording's body, the pieces behind them, and what the recording is packed with, if it is."""
    chunks, packed = recording(chunks_of(fd))
    chunks = iter(chunks)
    header, start = split_header(chunks)
    return bytes([version_of(header)]) + start, chunks, packed


def run(words, fd):
    start, chunks, packed = body_of(fd)
    program = subprocess.Popen([words[0], *words[2:]], stdin=subprocess.PIPE, stdout=subprocess.PIPE, bufsize=0)
    try:
        feeder = Feeder(program.stdin, start, chunks, packed)
        return pass_on(program, feeder)
    except BrokenPipeError:
        # whoever reads the lines may stop early
        return NO_LAST_LINE
    finally:
        program.kill()
        program.wait()


def is_number(word):
    return re.fullmatch(r"[0-9]{1,64}", word, re.ASCII) is not None and int(word) <= LARGEST


def are_right(name, words):
    """Whether the words behind the program's are a file and, for rewind, a tick and perhaps a step."""
    if not words or words[0] in ("-h", "--help"):
        return False
    if name == WITH_TICK:
        return len(words) in (2, 3) and all(map(is_number, words[1:]))
    return len(words) == 1


def main(words):
    name = os.path.basename(words[0]) if words else "PROGRAM"
    if not are_right(name, words[1:]):
        tick = f" TICK [STEP]    (numbers up to {LARGEST})" if name == WITH_TICK else ""
        print(f"usage: tools/{name} FILE{tick}    (- for standard input)", file=sys.stderr)
        return 2
    try:
        return run(words, 0 if words[1] == "-" else os.open(words[1], os.O_RDONLY))
    except OSError as e:
        print(f"{name}: {words[1]}: {e.strerror}", file=sys.stderr)
    except Unfit as e:
        print(f"{name}: {words[1]}: {e}", file=sys.stderr)
    except Unwritten as e:
        print(f"{name}: standard output: {e}", file=sys.stderr)
    except KeyboardInterrupt:
        return 130
    return NO_LAST_LINE


if __name__ == "__main__":
    sys.exit(main(sys.argv[1:]))
