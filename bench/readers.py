"""Measures what clients that request a large document at once cost an editor of others: readers.py SERVER [READERS [BYTES]]

A document has a text of BYTES bytes (1,000,000). READERS clients (200) request it at one moment, five times, and read all that
comes. Meanwhile a bystander sends edits to sixteen other documents in turn. It prints the middle and the slowest acknowledgement of
the bystander, first without the others; and the time until each reader has the document.

SERVER is the program of the server. It is started at a port of its own and stopped at the end."""
import multiprocessing
import selectors
import sys
import time

from bystanders import DOCUMENTS, TYPE, Client, Server, bystand, report

ALONE = 10_000  # edits
ROUNDS = 5
READ_SIZE = 1 << 20
PAUSE = 0.5  # seconds


def request_all(clients, size):
    """Requests the document by each client, and reads until each has it. Returns the time that this takes, in seconds."""
    start = time.perf_counter()
    with selectors.DefaultSelector() as waiting:
        for client in clients:
            client.send_message({"a": "f", "c": "boards", "d": "large"})
            waiting.register(client.socket, selectors.EVENT_READ, [client, size])
        while waiting.get_map():
            for key, _ in waiting.select():
                received = len(key.fileobj.recv(READ_SIZE))
                if received == 0:
                    raise EOFError
                key.data[1] -= received
                if key.data[1] <= 0:
                    waiting.unregister(key.fileobj)
    return time.perf_counter() - start


def read_in_rounds(port, count, size, times):
    for _ in range(ROUNDS):
        clients = [Client(port, f"reader-{number}") for number in range(count)]
        time.sleep(PAUSE)
        times.put(request_all(clients, size))
        for client in clients:
            client.socket.close()


def main(program, readers=200, size=1_000_000):
    with Server(program, "--clients", str(ROUNDS * readers + 2)) as server:
        port = server.address[1]
        bystander, author = Client(port, "bystander"), Client(port, "author")
        for number in range(DOCUMENTS):
            bystander.submit(f"b{number}", create={"type": TYPE, "data": {"n": 0}})
        author.submit("large", create={"type": TYPE, "data": "x" * size})
        report("alone", bystand(bystander, ALONE, lambda: True))
        times = multiprocessing.Queue()
        reading = multiprocessing.Process(target=read_in_rounds, daemon=True, args=(port, readers, size, times))
        reading.start()
        report("concurrent", bystand(bystander, ALONE, lambda: not reading.is_alive()))
        reading.join()
        rounds = [times.get() for _ in range(ROUNDS)]
        print(f"all {readers} readers had {size:,} bytes after {min(rounds):.2f} to {max(rounds):.2f} seconds")


if __name__ == "__main__":
    main(sys.argv[1], *map(int, sys.argv[2:]))
