"""The files of nginx of one machine and of a cluster: which files they publish, what they forward, and that they need no bucket."""
import base64
import contextlib
import os
import shutil
import subprocess

import pytest

from machines import DEPLOY, MAIN, NGINX, PASSWORD, PATHS, PATIENCE, SITE, USER, free_ports, wait_for_port
from support.server import ROOT
from support.tls import make_certificate
from test_cluster import handshake, status_by_tls

FILES = {"one": DEPLOY / "nginx.conf", "cluster": DEPLOY / "cluster" / "nginx.conf"}
ONLY_CLUSTER = ("include /etc/nginx/navirotsohy.map;", "listen 127.0.0.1:8081;")
MAP = DEPLOY / "cluster" / "navirotsohy.map"
PUBLISHED = ["/examples/", "/examples/index.html", "/examples/page.js", "/examples/style.css", "/client/dist/navirotsohy.js"]
HIDDEN = [
    "/",
    "/examples",
    "/examples/client.py",
    "/examples/sharedb.js",
    "/examples/deploy/",
    "/examples/deploy/cluster/cluster.ini",
    "/examples/./deploy/stoppable",
    "/client/dist/",
    "/client/dist/navirotsohy.cjs",
    "/client/dist/%2e%2e/package.json",
    "/.git/config",
]

pytestmark = pytest.mark.skipif(NGINX is None, reason="nginx isn't installed")


class Proxy:
    """nginx with a file of examples/deploy but for addresses and paths, and the whole of examples/ and client/ as its folder."""

    def __init__(self, folder, kind, server=("127.0.0.1", 8080)):
        self.folder = folder
        self.port, self.monitor = free_ports(2)
        for name in ("examples", "client"):
            shutil.copytree(ROOT / name, folder / "documents" / name, ignore=shutil.ignore_patterns("node_modules"))
        (folder / "documents" / ".git").mkdir()
        (folder / "documents" / ".git" / "config").write_text("[core]\n")
        self.write_files(kind, server)
        self.command = [NGINX, "-p", str(folder), "-c", f"{folder}/nginx.conf", "-e", f"{folder}/error.log"]
        (folder / "tls").mkdir()
        self.trust = {"SSL_CERT_FILE": make_certificate(folder / "tls")}
        hashed = subprocess.run(["openssl", "passwd", "-6", PASSWORD], capture_output=True, text=True, check=True).stdout
        (folder / "users").write_text(f"{USER}:{hashed}")

    def write_files(self, kind, server):
        names = {"folder": self.folder, "port": self.port, "monitor": self.monitor}
        site = FILES[kind].read_text()
        changes = {text: other for text, other in SITE.items() if kind == "cluster" or text not in ONLY_CLUSTER}
        changes["root /srv/documents;"] = "root {folder}/documents;"
        if kind == "one":
            changes["proxy_pass http://127.0.0.1:8080/;"] = f"proxy_pass http://{server[0]}:{server[1]}/;"
        else:
            shutil.copy(MAP, self.folder / "map")
        for text, other in changes.items():
            assert site.count(text) == 1, text
            site = site.replace(text, other.format(**names))
        (self.folder / "site.conf").write_text(site)
        paths = "\n".join(f"    {it}_temp_path {self.folder}/{it};" for it in PATHS)
        user = "user root;\n" if os.geteuid() == 0 else ""
        (self.folder / "nginx.conf").write_text(MAIN.format(paths=paths, user=user, **names))

    @contextlib.contextmanager
    def running(self):
        nginx = subprocess.Popen(self.command)
        try:
            wait_for_port(("127.0.0.1", self.port))
            yield self
        finally:
            nginx.terminate()
            nginx.wait(PATIENCE)

    def status(self, path, password=PASSWORD):
        words = base64.b64encode(f"{USER}:{password}".encode()).decode()
        authorization = f"Authorization: Basic {words}\r\n" if password else ""
        return status_by_tls(self, f"GET {path} HTTP/1.1\r\nHost: documents.example.org\r\n{authorization}\r\n")


@pytest.mark.parametrize("kind", FILES)
def test_only_the_files_of_the_page_are_published(tmp_path, kind):
    with Proxy(tmp_path, kind).running() as proxy:
        assert {path: proxy.status(path) for path in PUBLISHED} == dict.fromkeys(PUBLISHED, 200)
        assert {path: proxy.status(path) for path in HIDDEN} == dict.fromkeys(HIDDEN, 404)
        assert {proxy.status(path, None) for path in (*PUBLISHED, *HIDDEN)} == {401}


def test_the_page_names_no_file_that_is_not_published():
    """index.html loads these files."""
    page = (ROOT / "examples" / "index.html").read_text()
    loaded = {it.split('"')[0] for word in ('src="', 'href="') for it in page.split(word)[1:]}
    assert {os.path.normpath(f"/examples/{it}") for it in loaded} <= set(PUBLISHED)


def test_the_proxy_of_one_machine(tmp_path, server):
    with Proxy(tmp_path, "one", server.address).running() as proxy:
        assert proxy.status("/documents", None) == 401
        assert status_by_tls(proxy, handshake("/documents")) == 101
        assert status_by_tls(proxy, handshake("/documents", password="wrong")) == 401
        assert status_by_tls(proxy, handshake("/documents", origin="https://other.example.org")) == 403
        assert status_by_tls(proxy, handshake("/documents").replace("Upgrade", "Other")) == 426
        assert status_by_tls(proxy, handshake("/health")) == 404


def test_nginx_starts_before_a_bucket_is_added(tmp_path):
    """The file of the map that examples/deploy has is that of no bucket."""
    with Proxy(tmp_path, "cluster").running() as proxy:
        assert status_by_tls(proxy, handshake("/b/0")) == 404
    (tmp_path / "map").unlink()
    refused = subprocess.run([*proxy.command, "-t"], capture_output=True, text=True, check=False)
    assert refused.returncode != 0 and "map" in refused.stderr
