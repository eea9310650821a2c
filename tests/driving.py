"""The C driver as a child process that is sent requests and answers them: what tests/compare, tests/hostile, tests/runs and
tests/sequence share."""
import itertools
import pathlib
import select
import shlex
import subprocess
import threading

PATIENCE = 60       # seconds in which a batch must be answered; a driver that does not flush its answers ends here
BUILDING = 600      # seconds for the first batch: host/drive builds what has changed before it runs
DRIVER = pathlib.Path(__file__).resolve().parent.parent / "host" / "drive"
SILENT = "(ended, or silent for too long)"


class Driver:
    """The driver as a child process that is sent requests in batches."""

    def __init__(self, command):
        self.child = subprocess.Popen(shlex.split(command), stdin=subprocess.PIPE, stdout=subprocess.PIPE)
        self.patience = BUILDING

    def send(self, requests):
        """Writes from a thread, so that neither side waits for the other with its pipe full."""
        self.sender = threading.Thread(target=self.write, args=("".join(line + "\n" for line in requests).encode(),))
        self.watch = threading.Timer(self.patience, self.child.kill)
        self.sender.start()
        self.watch.start()

    def write(self, data):
        try:
            self.child.stdin.write(data)
            self.child.stdin.flush()
        except BrokenPipeError:
            pass

    def receive(self, expected):
        """The answers to a batch; fewer if the driver ended."""
        lines = (self.child.stdout.readline() for _ in range(expected))
        answers = [line.decode("latin-1").removesuffix("\n") for line in itertools.takewhile(bool, lines)]
        self.watch.cancel()
        self.sender.join()
        self.patience = PATIENCE
        return answers

    def put(self, request):
        """One request alone: the driver reads a line whole before it answers, so it needs no thread."""
        self.write(request.encode() + b"\n")

    def take(self):
        """The answer to it; SILENT if the driver ended, or gives none in time."""
        ready, _, _ = select.select([self.child.stdout], [], [], self.patience)
        line = self.child.stdout.readline() if ready else b""
        self.patience = PATIENCE
        return line.decode("latin-1").removesuffix("\n") or SILENT

    def finish(self):
        """What is wrong with the driver's end, or None."""
        try:
            self.child.stdin.close()
        except BrokenPipeError:
            pass
        more = self.child.stdout.read()
        code = self.child.wait()
        if more:
            return f"the driver wrote {len(more)} bytes more than it was asked for"
        return f"the driver ended with {code}" if code else None


def add_option(parser):
    parser.add_argument("--driver", default=shlex.quote(str(DRIVER)), help="the driver's command, else host/drive")


def shortened(line):
    return line if len(line) <= 3000 else f"{line[:3000]}.. ({len(line)} characters)"


def show(number, request, got, wanted, whose="model"):
    print(f"request {number}: {shortened(request)}\n  driver: {shortened(got)}\n  {whose + ':':7} {shortened(wanted)}")
