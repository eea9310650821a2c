"""The model as a filter: one request a line on standard input, one answer a line on standard output."""
import pathlib
import sys

sys.dont_write_bytecode = True
sys.path[0] = str(pathlib.Path(__file__).resolve().parent.parent)

from model import answer


def main():
    for line in sys.stdin.buffer:
        request = line.removesuffix(b"\n").decode("latin-1")
        sys.stdout.write(answer(request) + "\n")
        sys.stdout.flush()


main()
