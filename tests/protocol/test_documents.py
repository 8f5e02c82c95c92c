"""Executes each example of README.md and docs/: over lines and over a WebSocket, byte by byte."""
import asyncio

import pytest

from support.dialogue import answers_of, matches, sessions
from support.server import Server

QUIET = 0.1  # seconds in which no further answer may come
PATIENCE = 60  # seconds for an answer

DIALOGUES, STEPS = sessions("dialogue"), sessions("steps")


def differences(expected, answers):
    """Yields a line if the answers aren't the expected ones."""
    for (place, text), answer in zip(expected, answers):
        if not matches(text, answer):
            yield f"{place}: {answer}"
            return
    if len(expected) != len(answers):
        yield f"{expected[-1][0]}: {len(answers)} answers, and not {len(expected)}"


@pytest.mark.parametrize("session", DIALOGUES, ids=lambda it: it.name())
def test_over_lines(program, session):
    assert not list(differences(session.expected(), answers_of(program, session)))


@pytest.mark.parametrize("session", STEPS, ids=lambda it: it.name())
def test_steps(steps_program, session):
    assert not list(differences(session.expected(), answers_of(steps_program, session)))


@pytest.mark.parametrize("session", DIALOGUES, ids=lambda it: it.name())
def test_over_websocket(program, session):
    with Server(program, *session.options) as server:
        assert not list(differences(session.expected(), asyncio.run(exchanged(server.url, session))))


async def exchanged(url, session):
    """Returns the answers. Each message is sent after the expected answers to the one before."""
    websockets = pytest.importorskip("websockets")
    answers = []
    async with websockets.connect(url) as socket:
        answers.append(await asyncio.wait_for(socket.recv(), PATIENCE))
        for _, message, expected in session.turns:
            await socket.send(message)
            for _ in [None] if expected is None else expected:
                answers.append(await asyncio.wait_for(socket.recv(), PATIENCE))
        try:
            answers.append(await asyncio.wait_for(socket.recv(), QUIET))
        except asyncio.TimeoutError:
            pass
    return answers
