"""The order of messages (docs/PROTOCOL.md, "Order of messages"), with two connections."""
import json

from support.frames import text

PLACE = {"c": "board", "d": "1"}


def create(connection):
    return connection.ask({"a": "op", **PLACE, "src": "creator", "seq": 1, "create": {"type": "json0", "data": {"n": 0}}})


def add(src, seq, **members):
    return {"a": "op", **PLACE, "src": src, "seq": seq, "op": [{"p": ["n"], "na": 1}], **members}


def kinds(messages):
    """Returns an operation's version, the word ack with a version, or the message's name."""
    return [it["v"] if "op" in it else ("ack", it["v"]) if it["a"] == "op" else it["a"] for it in messages]


def test_answers_come_in_the_order_of_requests(server):
    with server.enter() as connection:
        create(connection)
        fetches = [{"a": "f", **PLACE, "v": it} for it in (0, 1)]
        requests = [fetches[0], add("x", 1), {"a": "nf", **PLACE, "id": 1}, fetches[1], {"a": "hs"}]
        connection.send(b"".join(map(text, requests)))
        messages = [connection.message() for _ in range(7)]
        assert kinds(messages[1:]) == ["f", ("ack", 1), "nf", 1, "f", "hs"]


def test_list_is_not_interrupted(server):
    with server.enter() as reader, server.enter() as writer:
        create(writer)
        reader.ask({"a": "s", **PLACE})
        for round_ in range(20):
            writer.send(b"".join(text(add("w", 10 * round_ + it)) for it in range(10)))
            reader.send(text({"a": "f", **PLACE, "v": 0}))
            messages = [reader.message()]
            while messages[-1] != {"a": "f", **PLACE}:
                messages.append(reader.message())
            versions = [it["v"] for it in messages[:-1]]
            last = max(at for at, it in enumerate(messages) if "create" in it)
            assert versions[last:] == list(range(len(versions) - last))
            for _ in range(10):
                writer.message()


def test_acknowledgement_of_a_duplicate_comes_before_missed_operations(server):
    with server.enter() as old, server.enter() as other, server.enter() as new:
        create(other)
        other.ask(add("y", 1))
        assert kinds([old.ask(add("x", 1, v=2))]) == [("ack", 2)]
        assert kinds([new.ask(add("x", 1, v=1))]) == [("ack", 2)]
        new.send(text({"a": "f", **PLACE, "v": 1}))
        assert kinds([new.message() for _ in range(3)]) == [1, 2, "f"]


def test_own_operation_is_one_of_this_connection(server):
    """A subscription has what another connection of the same source submitted. A list has own operations too."""
    with server.enter() as old, server.enter() as new, server.enter() as other:
        for connection in (old, new):
            connection.ask({"a": "hs", "id": "x"})
        create(other)
        new.ask({"a": "s", **PLACE})
        old.ask(add("x", 1))
        assert kinds([new.message(), new.ask(add("x", 2))]) == [1, ("ack", 2)]
        other.ask(add("y", 1))
        assert kinds([new.message()]) == [3]
        assert kinds([new.ask(add("x", 1, v=1))]) == [("ack", 1)]
        new.send(text({"a": "s", **PLACE, "v": 1}))
        assert kinds([new.message() for _ in range(4)]) == [1, 2, 3, "s"]


def test_numbers_are_per_document_and_may_have_gaps(server):
    with server.enter() as connection:
        create(connection)
        found = [connection.ask(add("x", seq)) for seq in (7, 3, 7, 900)]
        assert kinds(found) == [("ack", 1), ("ack", 2), ("ack", 1), ("ack", 3)]
        elsewhere = {"a": "op", "c": "board", "d": "2", "src": "x", "seq": 7, "del": True}
        assert connection.ask(elsewhere)["v"] == 0


def test_missed_operations_are_not_in_a_refusal(server):
    with server.enter() as connection:
        create(connection)
        connection.ask(add("x", 1))
        answer = connection.ask({"a": "op", **PLACE, "v": 1, "src": "y", "seq": 1, "op": [{"p": ["none", 0], "li": 1}]})
        assert answer["error"]["code"] == "ERR_OT_OP_NOT_APPLIED"
        assert json.loads(json.dumps(connection.ask({"a": "hs"})))["a"] == "hs"
