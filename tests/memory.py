"""The record as it lies in a C host's memory, and tests/calls.c, which calls the library on it."""
import pathlib
import struct
import subprocess

ROOT = pathlib.Path(__file__).resolve().parent.parent
IDS, WORDS, USED, VERSION = 24, 24, 12, 1
GAP = 8                     # the first of the four words of a gap
BUILD = """
set -eu
. host/kit.sh
kit_find
host/build --quick >&2 </dev/null
mkdir -p target/tests
kit_compile tests/calls.c target/tests/calls.o
kit_link target/tests/calls target/tests/calls.o target/host/linked.a
kit_run target/tests/calls
"""


def answers(requests):
    """The answers of tests/calls.c to these lines."""
    asked = "".join(line + "\n" for line in requests)
    return subprocess.run(["sh", "-c", BUILD], cwd=ROOT, input=asked, stdout=subprocess.PIPE, text=True, check=True).stdout.splitlines()


def record_bytes(record, behind=b"\1"):
    """A record of the model; of a CompID that is too long the true length, as far as it goes in a byte. `behind` fills a CompID's place."""
    ids = b"".join(bytes([min(len(one), 255)]) + one[:11].ljust(11, behind) for one in (record.ours, record.peer))
    used = [VERSION, record.status, record.expected, record.next_out, record.heartbeat, record.last_sent, record.at, record.to, *record.gap]
    return ids + struct.pack(f"<{WORDS}Q", *used, *[0] * (WORDS - USED))
