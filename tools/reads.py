"""What the tools share that show what plans read: matrix and plan texts, and the program's answers."""
import os
import re
import subprocess

TOP = os.path.dirname(os.path.dirname(os.path.abspath(__file__)))
PROGRAM = os.path.abspath(os.environ.get("PROGRAM", os.path.join(TOP, "crates/minread/out/minread")))
LARGEST_BUDGET = 33554432
MATRIX_TEXT = re.compile(r"matrix (?:1 \d+ \d+ \d+\n|2 \d+ \d+ \d+\nprice(?: \d+)+\n)(?:[01]+\n)+")
PLAN_TEXT = re.compile(r"plan 1 (?:least|spent|given)\nset(?: \d+)*\n(?:\d+ =(?: \d+)*\n)*end\n")


class Code:
    """A matrix text: the symbols, each a set of columns, and how many of them a device has."""

    def __init__(self, text):
        if not MATRIX_TEXT.fullmatch(text):
            raise ValueError("no matrix text")
        lines = text.splitlines()
        version, self.devices, self.per_device, self.columns = (int(word) for word in lines[0].split()[1:])
        self.rows = [{column for column, digit in enumerate(line) if digit == "1"} for line in lines[version:]]
        if len(self.rows) != self.devices * self.per_device or any(len(line) != self.columns for line in lines[version:]):
            raise ValueError("no matrix text")

    def symbols_of(self, device):
        return range(device * self.per_device, (device + 1) * self.per_device)

    def data_devices(self):
        """The devices whose symbols are data as they are."""
        return [device for device in range(self.devices)
                if all(len(self.rows[symbol]) == 1 for symbol in self.symbols_of(device))]

    def is_by_rows(self):
        """Whether symbol y of the first coding device is the XOR of the symbols y of all data devices, which come first
        and are all the data: then a lost data device is made from as many symbols as there are columns."""
        data = self.data_devices()
        rows = [set().union(*(self.rows[device * self.per_device + y] for device in data))
                for y in range(self.per_device)]
        first = self.symbols_of(len(data))
        return (data == list(range(len(data))) and len(data) * self.per_device == self.columns
                and [self.rows[symbol] for symbol in first] == rows)


class Plan:
    """A plan text: its kind, the symbols that are read, and those that are made."""

    def __init__(self, text):
        if not PLAN_TEXT.fullmatch(text):
            raise ValueError("no plan text")
        lines = text.splitlines()
        self.kind = lines[0].split()[2]
        self.read = [int(word) for word in lines[1].split()[1:]]
        self.made = [int(line.split()[0]) for line in lines[2:-1]]


def read(kind, path):
    """The matrix or the plan of a file; the fault names the file."""
    with open(path) as file:
        try:
            return kind(file.read())
        except ValueError as fault:
            raise ValueError("%s: %s" % (path, fault)) from None


def run(words, **more):
    return subprocess.run([PROGRAM, *words], stdout=subprocess.PIPE, stderr=subprocess.PIPE, check=False,
                          **{"stdin": subprocess.DEVNULL, **more})


def plan_text(matrix, lost, *options):
    """The plan for devices, or the line of the refusal as a ValueError."""
    done = run(["plan", matrix, ",".join(map(str, lost)) or "none", *options])
    if done.returncode:
        raise ValueError(done.stderr.decode().strip())
    return done.stdout.decode()


def best_plan(matrix, lost):
    """The plan within the usual budget or else within the largest, and whether the usual was enough."""
    plan = Plan(plan_text(matrix, lost))
    if plan.kind == "least":
        return plan, True
    return Plan(plan_text(matrix, lost, "--budget", str(LARGEST_BUDGET))), False
