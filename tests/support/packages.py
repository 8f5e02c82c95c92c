"""The Debian packages that tests need, by tests/packages.txt: which are missing, and their installation."""
import os
import pathlib
import shutil
import subprocess

LIST = pathlib.Path(__file__).resolve().parent.parent / "packages.txt"
DOWNLOAD = 60  # seconds for the download of packages, and for that of apt's lists
UNPACK = 300  # seconds for the installation of what was downloaded
APT = ["apt-get", "-q", "-y", "--no-remove", "--no-install-recommends", "-o", "DPkg::Lock::Timeout=20"]
APT += ["-o", "Acquire::Retries=1", "-o", "Acquire::http::Timeout=10", "-o", "Acquire::https::Timeout=10"]


def missing_packages(suite):
    """Returns the packages that the suite needs and that aren't installed."""
    found = []
    for line in LIST.read_text().splitlines():
        if line.startswith("#") or not line.strip():
            continue
        package, mark, *suites = line.split()
        if suite in suites and not (pathlib.Path(mark).exists() if mark.startswith("/") else shutil.which(mark)):
            found.append(package)
    return found


def apt(seconds, *words):
    """Runs apt-get without questions. Returns whether it succeeded within the time."""
    how = {"stdin": subprocess.DEVNULL, "stdout": subprocess.DEVNULL, "stderr": subprocess.DEVNULL}
    try:
        done = subprocess.run([*APT, *words], env={**os.environ, "DEBIAN_FRONTEND": "noninteractive"}, timeout=seconds, **how)
    except subprocess.TimeoutExpired:
        return False
    return done.returncode == 0


def install(packages):
    """Installs packages if this process may. A download that exceeds its time leaves nothing half installed.

    Returns None, or the reason why they weren't installed.
    """
    if os.geteuid() != 0 or not shutil.which("apt-get"):
        return "that needs root and apt-get"
    fetch = ["install", "--download-only", *packages]
    if not apt(DOWNLOAD, *fetch) and not (apt(DOWNLOAD, "update") and apt(DOWNLOAD, *fetch)):
        return f"apt-get didn't download them (it has {DOWNLOAD} seconds)"
    return None if apt(UNPACK, "install", "--no-download", *packages) else "apt-get refused them"
