"""Random edits of one document, and their effect. Texts have ASCII letters only, so no offset is inside a surrogate pair."""

START = {"text": "", "list": [], "members": {}, "count": 0, "torn": 0}
LONGEST_TEXT, LONGEST_LIST = 200, 20


def random_edit(chance, document):
    """Returns a component that is made for the document."""
    written, listed, kind = document["text"], document["list"], chance.randrange(4)
    if kind == 0:
        at = chance.randrange(len(written) + 1)
        removed = written[at : at + 5] if len(written) > LONGEST_TEXT else ""
        return {"p": ["text", at], **({"sd": removed} if removed else {"si": chance.choice(("a", "bc", "def "))})}
    if kind == 1 and len(listed) < LONGEST_LIST:
        return {"p": ["list", chance.randrange(len(listed) + 1)], "li": chance.randrange(100)}
    if kind == 1:
        at = chance.randrange(len(listed))
        return {"p": ["list", at], "ld": listed[at]}
    if kind == 2:
        key = chance.choice("klm")
        removed = {"od": document["members"][key]} if key in document["members"] else {}
        return {"p": ["members", key], "oi": chance.randrange(100), **removed}
    return {"p": ["count"], "na": chance.randint(-3, 5)}


def apply(document, component):
    """Applies one component in place."""
    *way, last = component["p"]
    of_text = "si" in component or "sd" in component
    steps, step = (way[:-1], way[-1]) if of_text else (way, last)
    place = document
    for it in steps:
        place = place[it]
    if of_text:
        removed, rest = component.get("sd", ""), place[step][last:]
        assert rest.startswith(removed), "another text is deleted"
        place[step] = place[step][:last] + component.get("si", "") + rest[len(removed) :]
    elif "na" in component:
        place[step] += component["na"]
    elif "li" in component and "ld" not in component:
        place.insert(step, component["li"])
    elif "li" in component or "oi" in component:
        place[step] = component["li"] if "li" in component else component["oi"]
    else:
        del place[step]


# Edits of the nine shapes, of any document ----------------------------------------------------------------------------

PIECES = ("a", "bc", "é", "漢字", "😀", "x😀y")


def places(value, path=()):
    """Yields each value inside a document with its path."""
    yield list(path), value
    children = value.items() if isinstance(value, dict) else enumerate(value) if isinstance(value, list) else ()
    for step, child in children:
        yield from places(child, (*path, step))


def units(text):
    return len(text.encode("utf-16-le")) // 2


def small_value(chance):
    return chance.choice((None, True, 7, "text", "😀", [], [1, "b"], {}, {"k": 1, "t": "ab"}))


def any_edit(chance, document):
    """Returns a component of one of the nine shapes that is made for the document, or None."""
    path, value = chance.choice(list(places(document)))
    if isinstance(value, bool) or value is None:
        return None
    if isinstance(value, int):
        return {"p": path, "na": chance.randint(-3, 5)}
    if isinstance(value, str):
        start = chance.randrange(len(value) + 1)
        removed = value[start : start + chance.randint(1, 4)]
        shape = {"sd": removed} if removed and chance.random() < 0.4 else {"si": chance.choice(PIECES)}
        return {"p": [*path, units(value[:start])], **shape}
    if isinstance(value, list):
        at, kind = chance.randrange(len(value) + 1), chance.random()
        if at == len(value) or kind < 0.4:
            return {"p": [*path, at], "li": small_value(chance)}
        return {"p": [*path, at], "ld": value[at], **({"li": small_value(chance)} if kind < 0.6 else {})}
    key, kind = chance.choice("abcdef"), chance.random()
    if key not in value:
        return {"p": [*path, key], "oi": small_value(chance)}
    return {"p": [*path, key], "od": value[key], **({"oi": small_value(chance)} if kind < 0.5 else {})}
