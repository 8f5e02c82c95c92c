"""Programs that bench/sockets and bench/load measure over WebSockets, and their clients, which are written in C."""
import contextlib
import json
import os
import subprocess
import sys
import time

HERE = os.path.dirname(os.path.abspath(__file__))
CRATES = os.path.join(HERE, "..", "crates")
TICKS = os.sysconf("SC_CLK_TCK")
FULL = 64  # clients that the server takes by default
MANY, GROUPS = 1024, 64  # clients of a large server, and their documents
PAUSE = 0.3  # seconds for the programs to notice that the connections of the last run have ended
SETTLED = 2  # seconds over which the processor time of idle connections is measured


def build(crate):
    folder = os.path.join(CRATES, crate)
    with open(os.path.join(folder, "args")) as words, open(os.path.join(folder, "stdin")) as lines:
        command = ["rt", "run", "--", *words.read().split()]
        built = subprocess.run(command, cwd=folder, stdin=lines, stdout=subprocess.PIPE, stderr=subprocess.STDOUT, text=True)
    if built.returncode != 0:
        sys.exit(f"{built.stdout}{crate} was not built")
    return os.path.join(folder, "out", crate)


def build_clients(folder, name):
    program = os.path.join(folder, name)
    source = os.path.join(HERE, f"{name}.c")
    subprocess.run([os.environ.get("CC", "cc"), "-O2", "-pthread", "-o", program, source], check=True)
    return program


class Running:
    """A program that listens, and its clients."""

    def __init__(self, clients, *command):
        self.clients = clients
        self.process = subprocess.Popen([*command, "127.0.0.1:0"], stdout=subprocess.PIPE, text=True)
        said = self.process.stdout.readline()
        if not said.startswith("listening "):
            self.__exit__()
            sys.exit(f"{command[0]} doesn't listen: {said!r}")
        self.port = said.rsplit(":", 1)[1].strip()

    def __enter__(self):
        return self

    def __exit__(self, *_):
        self.process.kill()
        self.process.wait()

    def processor_time(self):
        with open(f"/proc/{self.process.pid}/stat") as stat:
            fields = stat.read().rsplit(")", 1)[1].split()
        return (int(fields[11]) + int(fields[12])) / TICKS

    def busy(self):
        before, start = self.processor_time(), time.perf_counter()
        time.sleep(SETTLED)
        return (self.processor_time() - before) / (time.perf_counter() - start)

    def resident(self):
        return self.memory("VmRSS:")

    def peak(self):
        return self.memory("VmHWM:")

    def memory(self, name):
        """Returns a figure of the program's memory in KB."""
        with open(f"/proc/{self.process.pid}/status") as status:
            return next(int(line.split()[1]) for line in status if line.startswith(name))

    def command(self, mode, clients, *more):
        return [self.clients, mode, self.port, "-c", str(clients), *map(str, more)]

    def drive(self, mode, clients, *more):
        """Returns the clients' figures, their share of a processor, and the program's processor time for an operation in us."""
        time.sleep(PAUSE)
        before, start = self.processor_time(), time.perf_counter()
        seen = json.loads(subprocess.run(self.command(mode, clients, *more), stdout=subprocess.PIPE, check=True).stdout)
        seen["share"] = seen["processor"] / (time.perf_counter() - start)
        seen["cost"] = (self.processor_time() - before) / max(seen["submitted"], 1) * 1e6
        return seen

    @contextlib.contextmanager
    def standing(self, mode, clients):
        """Measures while this many clients are connected."""
        time.sleep(PAUSE)
        waiting = subprocess.Popen(self.command(mode, clients), stdin=subprocess.PIPE, stdout=subprocess.PIPE)
        waiting.stdout.readline()
        time.sleep(PAUSE)
        yield
        waiting.stdin.close()
        waiting.wait()
