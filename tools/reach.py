"""reach.py PROGRAM FROM TO: takes two .teehistorian files apart and gives their bodies to PROGRAM, which is reach.

teehistorian.py says what such a file is. The program takes files: the bodies lie in a private folder, which is removed at the end. A file that
can't be read to its end is reported, and the program isn't started. tools/reach says what each status means.
"""

import os
import re
import signal
import subprocess
import sys
import tempfile

from teehistorian import Unwritten, body_of, print_text
from unpack import Unfit, write_all

# What the program may say, and the status; anything else is FAILED.
SAID = [(rb"((reach: FROM|reach: TO): )?refused [0-9]+\n", 3), (rb"(reach: FROM|reach: TO): too long\n", 4)]
FAILED = 1


class Named(Exception):
    """What is wrong, and with what."""


def keep(out, data):
    try:
        write_all(out, data)
    except OSError as e:
        raise Unfit(f"its body can't be kept in a temporary file: {e.strerror}") from e


def put_body(fd, path):
    """Writes the version byte and the body of a recording to a new file."""
    start, chunks, packed = body_of(fd)
    out = os.open(path, os.O_WRONLY | os.O_CREAT | os.O_EXCL, 0o600)
    try:
        keep(out, start)
        for data in chunks:
            keep(out, data)
    finally:
        os.close(out)


def put_file(name, path):
    try:
        put_body(0 if name == "-" else os.open(name, os.O_RDONLY), path)
    except OSError as e:
        raise Named(f"{name}: {e.strerror}") from e
    except Unfit as e:
        raise Named(f"{name}: {e}") from e


def run(program, names):
    """The status; printed are the program's bytes, or its line."""
    with tempfile.TemporaryDirectory(prefix="reach.") as folder:
        paths = [os.path.join(folder, word) for word in ("from", "to")]
        for name, path in zip(names, paths):
            put_file(name, path)
        ran = subprocess.run([program, *paths], stdin=subprocess.DEVNULL, capture_output=True, check=False)
    if ran.returncode != 0:
        raise Named(f"the program ended with status {ran.returncode}")
    if ran.stderr:
        write_all(2, ran.stderr)
        return next((n for line, n in SAID if re.fullmatch(line, ran.stderr)), FAILED)
    print_text(ran.stdout)
    return 0


def main(words):
    names = words[1:]
    if len(names) != 2 or "--help" in names or "-h" in names or names == ["-", "-"]:
        print("usage: tools/reach FROM TO    (- for standard input, once)", file=sys.stderr)
        return 2
    # so that the folder is removed
    signal.signal(signal.SIGTERM, lambda number, frame: sys.exit(128 + number))
    try:
        return run(words[0], names)
    except Named as e:
        print(f"reach: {e}", file=sys.stderr)
    except Unwritten as e:
        print(f"reach: standard output: {e}", file=sys.stderr)
    except BrokenPipeError:
        # whoever reads the bytes may stop early
        pass
    except OSError as e:
        print(f"reach: {e}", file=sys.stderr)
    except KeyboardInterrupt:
        return 130
    return FAILED


if __name__ == "__main__":
    sys.exit(main(sys.argv[1:]))
