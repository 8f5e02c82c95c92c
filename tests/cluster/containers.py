"""Machines with systemd: containers of systemd-nspawn, which a bridge connects with this network namespace.

The variable SYSTEMD_ROOT names a folder with a small Debian, which stays unchanged:

    debootstrap --variant=minbase --include=systemd,systemd-sysv,dbus bookworm FOLDER
"""
import contextlib
import os
import re
import shutil
import subprocess
import sys
import tarfile
import time

from machines import DEPLOY, ip
from support.archive import make_archive
from support.server import UNPROVED

ROOT = os.environ.get("SYSTEMD_ROOT")
BOOT = 120  # seconds until a container must have booted or ended
NETWORK = "[Match]\nName=host0\n[Network]\nAddress={machine}/24\nAddress={other}/24\nLinkLocalAddressing=no\n"
# a control group of its own for each container, as systemd gives a unit
START = """for kind in cgroup2 cgroup; do
    place=$(findmnt -n -o TARGET -t $kind $options | head -n 1)
    options="-O name=systemd"
    test -z "$place" || {{ mkdir -p "$place/{name}" && echo $$ > "$place/{name}/cgroup.procs"; }}
done
exec systemd-nspawn -q -D {folder}/{machine}/merged -M {name} --boot --register=no --keep-unit --link-journal=no --console=pipe \\
    --capability=all --system-call-filter=bpf --network-bridge={bridge}
"""
ENTER = """#!/bin/sh
# enter MACHINE COMMAND: runs a command in the container of a machine
parent=$(cat {folder}/$1/number)
exec nsenter -m -u -i -n -p -C -r -w -t $(cat /proc/$parent/task/$parent/children) \\
    env -i PATH=/usr/local/sbin:/usr/local/bin:/usr/sbin:/usr/bin:/sbin:/bin sh -c "$2"
"""


class Containers:
    """Two containers with the archive of the program and the units in it, and the script `buckets` with its own settings."""

    def __init__(self, folder, program):
        self.folder, self.program, self.running = folder, program, {}
        self.bridge, net = f"nv{os.getpid()}", f"10.214.{os.getpid() % 256}"
        self.front, self.machines = f"{net}.1", [f"{net}.11", f"{net}.12"]
        self.stranger = self.front.replace("10.214", "10.215")  # an address that the unit doesn't allow
        (folder / "enter").write_text(ENTER.format(folder=folder))
        (folder / "enter").chmod(0o755)
        self.archive, self.is_unproved = make_archive(program, folder / "archive"), program == str(UNPROVED)
        self.write_settings()

    def write_settings(self):
        settings = (DEPLOY / "cluster" / "cluster.ini").read_text()
        own = {"buckets": "2", "map": f"{self.folder}/map", "at": f"{self.folder}/enter {{machine}} {{command}}", "reload": "true"}
        for name, value in own.items():
            settings, count = re.subn(rf"^{name} = .*$", f"{name} = {value}", settings, flags=re.M)
            assert count == 1, name
        (self.folder / "cluster.ini").write_text(settings)

    def __enter__(self):
        try:
            ip("link", "add", self.bridge, "type", "bridge")
            for address in (self.front, self.stranger):
                ip("addr", "add", f"{address}/24", "dev", self.bridge)
            ip("link", "set", self.bridge, "up")
            for machine in self.machines:
                self.install(machine)
                self.boot(machine)
            for machine in self.machines:
                self.wait_for_boot(machine)
        except BaseException:
            self.__exit__()
            raise
        return self

    def __exit__(self, *_):
        for machine, process in self.running.items():
            process.terminate()
            with contextlib.suppress(subprocess.TimeoutExpired):
                process.wait(BOOT)
            process.kill()
            subprocess.run(["umount", self.folder / machine / "merged"], check=False)
        groups = ["find", "/sys/fs/cgroup", "-depth", "-type", "d", "-path", f"*/{self.bridge}-*", "-exec", "rmdir", "{}", ";"]
        subprocess.run(groups, stderr=subprocess.DEVNULL, check=False)
        with contextlib.suppress(subprocess.CalledProcessError):
            ip("link", "del", self.bridge)

    def install(self, machine):
        """Puts files on top of those of the small Debian."""
        place = self.folder / machine
        upper, merged = place / "upper", place / "merged"
        for part in (upper, place / "work", merged):
            part.mkdir(parents=True)
        layers = f"lowerdir={ROOT},upperdir={upper},workdir={place}/work"
        subprocess.run(["mount", "-t", "overlay", "overlay", "-o", layers, merged], check=True)
        with tarfile.open(self.archive) as tar:
            tar.extractall(merged / "root")
        (place_of_archive,) = (merged / "root").glob("navirotsohy-*")
        place_of_archive.rename(merged / "root" / "archive")
        cluster = merged / "root" / "archive" / "cluster"
        unit = (cluster / "navirotsohy@.service").read_text()
        assert unit.count("10.0.0.0/24") == 1
        files = {"etc/systemd/system/navirotsohy@.service": unit.replace("10.0.0.0/24", f"{self.front}/24")}
        files["etc/navirotsohy/machine"] = f"ADDRESS={machine}\n"
        files["etc/systemd/network/10-host0.network"] = NETWORK.format(machine=machine, other=machine.replace("10.214", "10.215"))
        for name, content in files.items():
            (merged / name).parent.mkdir(parents=True, exist_ok=True)
            (merged / name).write_text(content)
        for drop_in in cluster.glob("*.service.d"):  # of an unproved program
            shutil.copytree(drop_in, merged / "etc/systemd/system" / drop_in.name)
        for name in ("sdb_server", "stoppable"):
            shutil.copy(merged / "root" / "archive" / name, merged / "usr/local/bin")
        enable = ["systemctl", f"--root={merged}", "enable", "systemd-networkd", "systemd-networkd-wait-online"]
        subprocess.run(enable, check=True, capture_output=True)

    def boot(self, machine):
        names = {"folder": self.folder, "machine": machine, "bridge": self.bridge, "name": f"{self.bridge}-{machine[-2:]}"}
        environment = {**os.environ, "SYSTEMD_NSPAWN_UNIFIED_HIERARCHY": "1"}
        with open(self.folder / machine / "log", "w") as log:
            streams = {"stdin": subprocess.DEVNULL, "stdout": log, "stderr": log}
            process = subprocess.Popen(["sh", "-c", START.format(**names)], env=environment, start_new_session=True, **streams)
        self.running[machine] = process
        (self.folder / machine / "number").write_text(str(process.pid))

    def wait_for_boot(self, machine):
        end = time.monotonic() + BOOT
        while self.run(machine, "systemctl is-system-running") not in ("running", "degraded"):
            assert time.monotonic() < end and self.running[machine].poll() is None, (self.folder / machine / "log").read_text()
            time.sleep(0.2)

    def run(self, machine, command):
        """Returns the output of a command in a container."""
        ran = subprocess.run([self.folder / "enter", machine, command], capture_output=True, text=True, timeout=BOOT, check=False)
        return ran.stdout.strip()

    def reboot(self, machine):
        self.run(machine, "systemctl poweroff")
        self.running[machine].wait(BOOT)
        self.boot(machine)
        self.wait_for_boot(machine)

    def property(self, machine, bucket, name):
        return self.run(machine, f"systemctl show -p {name} --value navirotsohy@{bucket:03}")

    def buckets(self, *words):
        """Runs the script of examples/deploy. Returns what it printed."""
        command = [sys.executable, str(DEPLOY / "cluster" / "buckets"), *map(str, words)]
        environment = {**os.environ, "CLUSTER": str(self.folder / "cluster.ini")}
        ran = subprocess.run(command, env=environment, capture_output=True, text=True, check=False)
        assert ran.returncode == 0, ran.stdout + ran.stderr
        return ran.stdout
