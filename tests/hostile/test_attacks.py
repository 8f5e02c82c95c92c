"""One test for each attack, with honest clients of one document, at a server of its own. The second client is a reference client,
if there is a program of it.

    tests/run slow -k reader_that_never_reads
"""
import random

import attacks
import pytest
from editors import Editing, differences, enter_editors, log_of

ALL = [pytest.param(it, id=it.__name__) for it in attacks.QUICK]
ALL += [pytest.param(it, id=it.__name__, marks=pytest.mark.slow) for it in attacks.SLOW]


@pytest.fixture
def editors(server, seed, reference):
    return enter_editors(server, 2 if reference else 1, seed, program=reference)


def after(server, editors, sockets):
    """The hostile sessions have ended. The server still runs, the honest clients have its document, and all places are free."""
    attacks.wait_for_sockets(server, sockets)
    assert server.is_running()
    assert not list(differences(server, editors))
    for editor in editors:
        editor.leave()
    attacks.all_places(server)


@pytest.mark.parametrize("attack", ALL)
def test_attack(server, seed, editors, attack):
    attacks.store_large(server)
    kept, sockets = [], server.sockets()
    with Editing(editors) as editing:
        attack(server, random.Random(f"{seed} {attack.__name__}"), kept)
    assert not editing.faults
    after(server, editors, sockets)


def test_torn_edits(server, seed, editors):
    torn, chance = attacks.TornEdits(), random.Random(f"{seed} torn")
    sockets = server.sockets()
    with Editing(editors) as editing:
        for _ in range(torn.points()):
            torn(server, chance, [])
    assert not editing.faults
    after(server, editors, sockets)
    assert not list(attacks.torn_faults(server, torn, log_of(server, editors[0].place)))
