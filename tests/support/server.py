"""A server for a test. Its process and its port are released in each case, also if it doesn't start."""
import os
import pathlib
import re
import subprocess
import threading

from .frames import Connection

ROOT = pathlib.Path(__file__).resolve().parent.parent.parent
PROVED = ROOT / "out" / "sdb_server"
UNPROVED = ROOT / "out" / "unproved" / "sdb_server"
START = 60  # seconds until the server must listen
END = 30  # seconds until the server must end after the end of its input


class StartError(Exception):
    """The program doesn't listen."""


def default_server():
    """Returns the unproved program, or the proved one, or None."""
    return next((it for it in (UNPROVED, PROVED) if it.exists()), None)


class Server:
    """A server, on a free port if no address is given. With `dump` its standard output is its dump, which `stop` returns.

    The variable SERVER_OPTIONS has further options of the program, as `--loops 1`."""

    def __init__(self, program, *options, address="127.0.0.1:0", dump=False, restore_signals=True, environment=None):
        command = [str(program), "--listen", address, *options, *os.environ.get("SERVER_OPTIONS", "").split()]
        if dump:
            command += ["--until-eof", "--dump"]
        pipes = {"stdin": subprocess.PIPE, "stdout": subprocess.PIPE, "stderr": subprocess.PIPE}
        variables = {**os.environ, **(environment or {})}
        self.process = subprocess.Popen(command, text=True, restore_signals=restore_signals, env=variables, **pipes)
        try:
            line = self._first_line(self.process.stderr if dump else self.process.stdout)
            match = re.fullmatch(r"listening (\S+):(\d+)\n", line)
            if not match:
                raise StartError(f"{program} writes {line!r}")
            self.address = match[1], int(match[2])
            self.url = f"ws://{match[1]}:{match[2]}"
        except BaseException:
            self.release()
            raise

    def _first_line(self, stream):
        """Returns the first line. A program that writes none is killed, so the read ends."""
        timer = threading.Timer(START, self.process.kill)
        timer.start()
        try:
            return stream.readline()
        finally:
            timer.cancel()

    def __enter__(self):
        return self

    def __exit__(self, *_):
        self.release()

    def release(self):
        """Kills the process, waits for its end and closes its pipes."""
        self.process.kill()
        self.process.wait()
        for pipe in (self.process.stdin, self.process.stdout, self.process.stderr):
            pipe.close()

    def stop(self):
        """Ends the server's input. Returns the rest of its standard output."""
        return self.process.communicate(timeout=END)[0]

    def is_running(self):
        return self.process.poll() is None

    def connect(self):
        return Connection(self.address)

    def enter(self):
        """Returns a connection after its handshake and the server's first message."""
        return self.connect().enter()

    # Measures, on Linux ---------------------------------------------------------------------------------------

    def megabytes(self, line="VmRSS"):
        """Returns the resident memory, or with VmHWM its maximum."""
        status = pathlib.Path(f"/proc/{self.process.pid}/status").read_text()
        return int(re.search(rf"^{line}:\s+(\d+) kB", status, re.M)[1]) / 1_000

    def restart_maximum(self):
        """Sets the maximum of the resident memory to its present value."""
        pathlib.Path(f"/proc/{self.process.pid}/clear_refs").write_text("5")

    def sockets(self):
        """Returns the number of the server's open sockets."""
        links = pathlib.Path(f"/proc/{self.process.pid}/fd").iterdir()
        return sum(1 for it in links if is_socket(it))


def is_socket(link):
    try:
        return str(link.readlink()).startswith("socket:")
    except FileNotFoundError:  # closed meanwhile
        return False
