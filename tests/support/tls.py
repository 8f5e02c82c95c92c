"""A web server with TLS for a page: it serves the files of a folder, and forwards /documents to a server of documents."""
import asyncio
import contextlib
import mimetypes
import pathlib
import ssl
import subprocess
import tempfile


def make_certificate(folder):
    """Writes key.pem and certificate.pem, which is self-signed for 127.0.0.1. Returns the path of the certificate."""
    key, certificate = f"{folder}/key.pem", f"{folder}/certificate.pem"
    command = ["openssl", "req", "-x509", "-newkey", "rsa:2048", "-nodes", "-days", "1", "-subj", "/CN=127.0.0.1"]
    names = ["-addext", "subjectAltName=IP:127.0.0.1"]
    subprocess.run([*command, *names, "-keyout", key, "-out", certificate], check=True, capture_output=True)
    return certificate


def context(folder):
    """Returns a TLS context with such a certificate, which a browser accepts only by an option."""
    made = ssl.SSLContext(ssl.PROTOCOL_TLS_SERVER)
    made.load_cert_chain(make_certificate(folder), f"{folder}/key.pem")
    return made


async def copy(reader, writer):
    with contextlib.suppress(OSError):
        while data := await reader.read(65_536):
            writer.write(data)
            await writer.drain()
    writer.close()


def answer(root, path):
    file = pathlib.Path(root) / path.lstrip("/").split("?")[0]
    if not file.is_file():
        return b"HTTP/1.1 404 Not Found\r\nContent-Length: 0\r\nConnection: close\r\n\r\n"
    data, kind = file.read_bytes(), mimetypes.guess_type(file.name)[0]
    head = f"HTTP/1.1 200 OK\r\nContent-Type: {kind}\r\nContent-Length: {len(data)}\r\nConnection: close\r\n\r\n"
    return head.encode() + data


@contextlib.asynccontextmanager
async def https(root, documents):
    """Yields the port. `documents` is the address of the server of documents."""

    async def serve(reader, writer):
        with contextlib.suppress(asyncio.IncompleteReadError, OSError):
            head = await reader.readuntil(b"\r\n\r\n")
            path = head.split(b" ")[1].decode()
            if path == "/documents":
                inner, outer = await asyncio.open_connection(*documents)
                outer.write(head)
                await asyncio.gather(copy(reader, outer), copy(inner, writer))
                return
            writer.write(answer(root, path))
            await writer.drain()
        writer.close()

    with tempfile.TemporaryDirectory() as folder:
        listening = await asyncio.start_server(serve, "127.0.0.1", 0, ssl=context(folder))
        async with listening:
            yield listening.sockets[0].getsockname()[1]
