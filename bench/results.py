"""Results of bench/run, sockets and load as JSON: each figure with the spread of its runs, the commit and the machine."""
import datetime
import json
import os
import pathlib
import platform
import shlex
import statistics
import subprocess
import sys

ROOT = pathlib.Path(__file__).resolve().parent.parent
FOLDER = ROOT / "bench" / "results"


class Results:
    """The figures of one run of the benchmarks, in the order in which they were measured."""

    def __init__(self):
        self.figures = []
        self.began = datetime.datetime.now(datetime.timezone.utc)
        self.load_at_start = os.getloadavg()[0]

    def add(self, title, unit, value, runs=(), **more):
        """Adds a figure. `runs` are the single measurements in this unit, if there are several."""
        self.figures.append({"title": title, "unit": unit, "value": value, **spread(runs), **more})

    def document(self):
        return {
            "commit": git("rev-parse", "HEAD"),
            "command": shlex.join([os.path.relpath(sys.argv[0], ROOT), *sys.argv[1:]]),
            "changed": bool(git("status", "--porcelain", "--untracked-files=no")),
            "date": self.began.strftime("%Y-%m-%dT%H:%M:%SZ"),
            "machine": machine(),
            "load": {"start": self.load_at_start, "end": os.getloadavg()[0]},
            "figures": self.figures,
        }

    def write(self, path=None):
        """Writes the results. Returns the path, by default bench/results/DATE-COMMIT.json."""
        found = self.document()
        path = pathlib.Path(path or FOLDER / f"{found['date'][:10]}-{found['commit'][:8]}.json")
        path.parent.mkdir(parents=True, exist_ok=True)
        path.write_text(json.dumps(found, indent=1, ensure_ascii=False) + "\n")
        return path


def spread(runs):
    if len(runs) < 2:
        return {"runs": len(runs)} if runs else {}
    return {"runs": len(runs), "least": min(runs), "median": statistics.median(runs), "most": max(runs)}


def git(*words):
    ran = subprocess.run(["git", "-C", str(ROOT), *words], capture_output=True, text=True)
    return ran.stdout.strip() if ran.returncode == 0 else "unknown"


def machine():
    cpu = next((it.split(":", 1)[1].strip() for it in read("/proc/cpuinfo").splitlines() if it.startswith("model name")), "unknown")
    memory = next((int(it.split()[1]) * 1024 for it in read("/proc/meminfo").splitlines() if it.startswith("MemTotal")), None)
    return {
        "processor": cpu,
        "processors": os.cpu_count(),
        "memory": memory,
        "governor": read("/sys/devices/system/cpu/cpu0/cpufreq/scaling_governor").strip() or None,
        "system": platform.platform(),
    }


def read(path):
    try:
        return pathlib.Path(path).read_text()
    except OSError:
        return ""
