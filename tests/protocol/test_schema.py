"""Checks each example of the documents against docs/protocol.schema.json.

An answer must fit the schema. A request must fit it, unless it is answered with code 1, 2 or 3; then it must not.
"""
import decimal
import json

import pytest

from support.dialogue import ROOT, sessions

jsonschema = pytest.importorskip("jsonschema")

SCHEMA = json.loads((ROOT / "docs" / "protocol.schema.json").read_text())
REFUSED_BY_SCHEMA = {"ERR_MESSAGE_BADLY_FORMED", "ERR_DOC_TYPE_NOT_RECOGNIZED", "ERR_OT_OP_BADLY_FORMED"}


def validator(part):
    return jsonschema.Draft202012Validator({**SCHEMA, "anyOf": [{"$ref": f"#/$defs/{part}"}]})


REQUEST, ANSWER = validator("request"), validator("answer")


def number(text):
    """Returns a number that isn't an integer for the schema, if it isn't written in digits."""
    return decimal.Decimal(text) if text.startswith("-0") else int(text)


def parsed(text):
    """Returns the value of a message, or None if it is no JSON text or has an unpaired surrogate."""
    try:
        value = json.loads(text, parse_float=decimal.Decimal, parse_int=number)
        json.dumps(value, ensure_ascii=False, default=str).encode()
        return value
    except ValueError:
        return None


def faults(session):
    lines = session.opening and [("", session.opening[1])] or []
    for place, message, answers in session.turns:
        lines += [(session.place(place), text) for place, text in answers or []]
        first = json.loads(answers[0][1]) if answers else {}
        refused = first.get("error", {}).get("code") in REFUSED_BY_SCHEMA
        value = parsed(message)
        if (value is not None and REQUEST.is_valid(value)) == refused:
            yield f"{session.place(place)}: the schema and the server differ"
    for place, text in lines:
        yield from (f"{place}: {fault.message}" for fault in ANSWER.iter_errors(json.loads(text)))


def test_schema_is_one():
    jsonschema.Draft202012Validator.check_schema(SCHEMA)


@pytest.mark.parametrize("session", sessions("dialogue"), ids=lambda it: it.name())
def test_examples(session):
    assert not list(faults(session))


@pytest.mark.parametrize("code", SCHEMA["$defs"]["code"]["oneOf"], ids=lambda it: it["properties"]["code"]["const"])
def test_code_is_described(code):
    row = "| `{0[code][const]}` | {0[message][const]} |".format(code["properties"])
    assert row in (ROOT / "docs" / "PROTOCOL.md").read_text()
