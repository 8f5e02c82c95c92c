"""Eight honest clients edit two documents while all attacks are repeated for two minutes. One client of each document is a
reference client, if there is a program of it."""
import random
import threading
import time

import attacks
import pytest
from editors import Editing, differences, enter_editors, log_of
from support.frames import Full
from support.server import UNPROVED

EDITORS, DOCUMENTS = 8, 2
ATTACKS = 120  # seconds in which attacks begin
HELD = 16  # megabytes that each of 64 clients can hold; README.md has them
STORED = 3_000  # bytes of memory of a small stored edit

# How many threads repeat each attack. Those that wait for the longest silence are done once, at the beginning.
ONCE = ((attacks.silence, 6), (attacks.message_that_stops, 24), (attacks.hundred_handshakes_that_stop, 1))
REPEATED = (
    (attacks.message_that_drips, 4),
    (attacks.reader_that_never_reads, 6),
    (attacks.handshake_that_stops, 8),
    (attacks.handshake_that_drips, 4),
    (attacks.request_that_is_no_handshake, 2),
    (attacks.head_without_end, 1),
    (attacks.frames_against_the_protocol, 3),
    (attacks.text_that_is_not_utf8, 1),
    (attacks.message_in_fragments, 2),
    (attacks.message_too_long, 2),
    (attacks.flood_of_refused, 3),
    (attacks.flood_of_large, 3),
    (attacks.handshake_torn_down, 2),
)


class Attacks:
    """The threads of all attacks. A client that finds no free place tries again."""

    def __init__(self, server, seed):
        self.server, self.torn, self.kept, self.faults, self.done = server, attacks.TornEdits(), [], [], {}
        kinds = [(attack, count, False) for attack, count in ONCE]
        kinds += [(attack, count, True) for attack, count in (*REPEATED, (self.torn, 6))]
        self.threads = [
            threading.Thread(target=self.run_kind, args=(attack, f"{seed} {attack.__name__} {it}", repeated), daemon=True)
            for attack, count, repeated in kinds
            for it in range(count)
        ]

    def run_kind(self, attack, seed, repeated):
        chance, end = random.Random(seed), time.monotonic() + ATTACKS
        self.done.setdefault(attack.__name__, 0)
        tries = True
        while tries and time.monotonic() < end:
            try:
                attack(self.server, chance, self.kept)
                self.done[attack.__name__] += 1
                tries = repeated
            except Full:
                time.sleep(0.5)
            except Exception as fault:
                self.faults.append(f"{attack.__name__}: {fault or type(fault).__name__}")
                tries = repeated
            time.sleep(chance.random() / 5)

    def run(self):
        for thread in self.threads:
            thread.start()
        for thread in self.threads:
            thread.join()
        return self.faults + [f"{name} was never done" for name, count in self.done.items() if not count]


@pytest.mark.slow
def test_all_at_once(server, seed, reference):
    base = server.megabytes()
    attacks.store_large(server)
    editors = enter_editors(server, EDITORS, seed, DOCUMENTS, reference)
    sockets = server.sockets()
    with Editing(editors) as editing:
        hostile = Attacks(server, seed)
        assert not hostile.run()
    assert not editing.faults
    attacks.wait_for_sockets(server, sockets)
    for document in range(DOCUMENTS):
        assert not list(differences(server, editors[document::DOCUMENTS]))
    assert not list(attacks.torn_faults(server, hostile.torn, log_of(server, editors[0].place)))
    stored = sum(it.version for it in editors[:DOCUMENTS])
    for editor in editors:
        editor.leave()
    attacks.all_places(server)
    assert server.is_running()
    print(f"{hostile.done}; {stored} edits; {server.megabytes('VmHWM'):.0f} MB at most")
    if server.process.args[0] != str(UNPROVED):
        assert server.megabytes("VmHWM") <= base + attacks.SERVED * HELD + stored * STORED / 1_000_000
