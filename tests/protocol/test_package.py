"""The archive of examples/deploy/package: its files, their links, and the difference of an unproved program's."""
import hashlib
import json
import os
import pathlib
import re
import shlex
import subprocess
import tarfile

import pytest

from support.archive import make_archive
from support.frames import Connection
from support.server import END, ROOT, UNPROVED

DOCUMENTS = ["LICENSE", "README.md", "CHANGELOG.md", "docs/OPERATION.md", "docs/PROTOCOL.md", "docs/SCALING.md"]
DROP_INS = ["sdb_server.service.d/unproved.conf", "cluster/navirotsohy@.service.d/unproved.conf"]
LINK = re.compile(r"\]\(([^)\s#]*)(?:#([^)\s]*))?\)")


def unpacked(archive, folder):
    """Returns the folder that an archive makes."""
    with tarfile.open(archive) as tar:
        tar.extractall(folder)
    (made,) = folder.iterdir()
    assert archive.name == f"{made.name}.tar.gz"
    return made


@pytest.fixture(name="made", scope="module", params=[False, True], ids=["proved", "unproved"])
def made_fixture(request, program, tmp_path_factory):
    """Returns an archive that says this of the program."""
    return make_archive(program, tmp_path_factory.mktemp("archive"), request.param), request.param


@pytest.fixture(name="place")
def place_fixture(made, tmp_path):
    return unpacked(made[0], tmp_path)


def text_of(file):
    return re.sub(r"(?ms)^ *```.*?^ *```", "", file.read_text())


def anchors(file):
    """Returns the anchors of a document's headings."""
    headings = re.findall(r"(?m)^#+ (.+)$", text_of(file))
    return {re.sub(r"[^\w -]", "", it.lower()).replace(" ", "-") for it in headings}


def test_documents(place):
    assert [it for it in DOCUMENTS if not (place / it).is_file()] == []
    for file in place.rglob("*.md"):
        for target, anchor in LINK.findall(text_of(file)):
            linked = (file.parent / target).resolve() if target else file
            if "://" not in target:
                assert place in (linked, *linked.parents) and linked.exists(), f"{file.name}: {target}"
                assert not anchor or anchor in anchors(linked), f"{file.name}: {target}#{anchor}"
        source = ROOT / "examples" / "deploy" if file.name == "README.md" else ROOT / file.parent.relative_to(place)
        without_links = re.sub(r"\[([^\]]+)\]\([^)]*\)", r"\1", (source / file.name).read_text())
        assert re.sub(r"\[([^\]]+)\]\([^)]*\)", r"\1", file.read_text()) == without_links
    assert "](SCALING.md)" in (place / "docs" / "OPERATION.md").read_text()


def test_steps_name_files_of_the_archive(place):
    """Each file that a step of README.md installs or copies is there. A drop-in is in the archive of an unproved program only."""
    steps = "\n".join(re.findall(r"(?ms)^ *```\n(.*?)^ *```", (place / "README.md").read_text()))
    named = {it for command in re.split(r"&&|\n", steps) for it in sources_of(shlex.split(command))}
    assert named > {"sdb_server", "stoppable", "nginx.conf", "page/.", "cluster/buckets", "cluster/navirotsohy.map"}
    missing = {it for it in named if not (place / it).exists()}
    assert missing == (set() if "-unproved-" in place.name else {os.path.dirname(it) for it in DROP_INS})


def sources_of(words):
    """Returns the files that a command installs, copies or changes."""
    files = [it for it in words[1:] if not re.match(r"/|-|\d+$|s/|>", it)]
    return files if words[:1] in (["install"], ["cp"], ["sed"]) else []


def test_sums(made, place):
    archive, _ = made
    summed = archive.with_name(f"{archive.name}.sha256").read_text()
    assert summed == f"{hashlib.sha256(archive.read_bytes()).hexdigest()}  {archive.name}\n"
    lines = (place / "SHA256SUMS").read_text().splitlines()
    sums = {line.split("  ")[1]: line.split("  ")[0] for line in lines}
    files = {str(it.relative_to(place)): it for it in place.rglob("*") if it.is_file() and it.name != "SHA256SUMS"}
    assert sums == {name: hashlib.sha256(file.read_bytes()).hexdigest() for name, file in files.items()}


def printed_by(program, option):
    return subprocess.run([program, option], capture_output=True, text=True, check=True).stdout


def test_one_version(program):
    """The program, the package of the client, README and the change log have one version. An unproved program says so."""
    is_unproved = program == str(UNPROVED)
    version = json.loads((ROOT / "package.json").read_text())["version"]
    assert printed_by(program, "--version") == f"sdb_server {version}{'-unproved' if is_unproved else ''}\n"
    assert ("not proved" in printed_by(program, "--help")) == is_unproved
    assert f"Version {version}," in (ROOT / "README.md").read_text()
    assert re.search(r"(?m)^## (\S+?),? ", (ROOT / "CHANGELOG.md").read_text())[1] == version


def test_an_unproved_program_has_another_name_and_version(made, place, program):
    _, is_unproved = made
    printed = printed_by(program, "--version").split()[-1].removesuffix("-unproved")
    assert place.name.startswith(f"navirotsohy-unproved-{printed}-" if is_unproved else f"navirotsohy-{printed}-")
    assert (place / "VERSION").read_text() == (f"{printed}-unproved\n" if is_unproved else f"{printed}\n")
    assert [(place / it).exists() for it in DROP_INS] == [is_unproved] * 2


def test_the_same_files_make_the_same_archive(made, program, tmp_path):
    archive, is_unproved = made
    assert make_archive(program, tmp_path, is_unproved).read_bytes() == archive.read_bytes()


def test_the_page(place):
    """The archive has the files that the page loads, and no other one."""
    page = place / "page" / "examples" / "index.html"
    loaded = [(page.parent / it).resolve() for it in re.findall(r'(?:src|href)="([^"]+)"', page.read_text())]
    assert {it for it in (place / "page").rglob("*") if it.is_file()} == {page, *loaded}


def test_the_program_of_the_archive_starts(place):
    command = [place / "stoppable", place / "sdb_server", "--listen", "127.0.0.1:0", "--store", place / "store"]
    with subprocess.Popen(command, stdout=subprocess.PIPE, text=True) as server:
        host, port = server.stdout.readline().split()[-1].rsplit(":", 1)
        with Connection((host, int(port))).enter() as connection:
            server.terminate()
            assert connection.status() == 1001
        server.communicate(timeout=END)
        assert server.returncode == 0 and pathlib.Path(place / "store").exists()
