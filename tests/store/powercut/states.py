"""The states that a power cut may leave.

A sync that has returned keeps all writes of its file that had returned before it began. Of the later ones each is lost, kept, or
mixed with what it replaces, by sectors of 512 bytes or by single bytes; they may be reordered, so any subset of them is kept. The
files are independent. A file that was created may be missing until its folder is synced."""
import pathlib

from .record import CREATE, OPEN, SYNC, SYNC_FOLDER, TRUNCATE, WRITE

SECTOR = 512
MODES = ("none", "mixed", "mixed again", "prefix", "without the last", "all")
NAME_IS_LOST = 0.5


class File:
    def __init__(self, durable=b""):
        self.durable, self.pending, self.is_named, self.created = bytearray(durable), [], bool(durable), 0

    def copy(self):
        other = File(self.durable)
        other.pending, other.is_named, other.created = list(self.pending), self.is_named, self.created
        return other


def apply(content, event, data=None):
    data = event.data if data is None else data
    if event.kind == TRUNCATE:
        del content[event.offset :]
        content.extend(bytes(max(0, event.offset - len(content))))
        return
    end = event.offset + len(data)
    content.extend(bytes(max(0, end - len(content))))
    content[event.offset : end] = data


def states_at(events, cuts, ignored=0, found=None):
    """Yields each cut with the files by path. Of N syncs the last one is ignored, if N is given."""

    # (a sync counts from its end on, all else from its beginning on)
    def moment(event):
        return event.end if event.kind in (SYNC, SYNC_FOLDER) else event.begin

    line = sorted(events, key=moment)
    files, at, syncs = found or {}, 0, 0
    for cut in sorted(cuts):
        while at < len(line) and moment(line[at]) < cut:
            syncs += line[at].kind == SYNC
            if not (ignored and line[at].kind == SYNC and syncs % ignored == 0):
                follow(files, line[at])
            at += 1
        yield cut, {path: file.copy() for path, file in files.items()}


def follow(files, event):
    """Applies an event of the disk to the files."""
    if event.kind == OPEN:
        file = files.setdefault(event.path, File())
        is_new = event.offset & CREATE and not event.result
        file.is_named = file.is_named or not (is_new or file.created)
        file.created = file.created or event.end
    elif event.kind in (WRITE, TRUNCATE) and event.result >= 0:
        files[event.path].pending.append(event)
    elif event.kind == SYNC and event.result == 0:
        file = files[event.path]
        for write in [it for it in file.pending if it.end < event.begin]:
            apply(file.durable, write)
        file.pending = [it for it in file.pending if it.end >= event.begin]
    elif event.kind == SYNC_FOLDER and event.result == 0:
        for file in files.values():
            file.is_named = file.is_named or 0 < file.created < event.begin


def outcome(file, chance, mode):
    """Returns what is left of a file."""
    content, count = bytearray(file.durable), len(file.pending)
    kept = {"all": count, "none": 0, "without the last": count - 1, "prefix": chance.randrange(count + 1)}.get(mode)
    for number, event in enumerate(file.pending):
        fate = (
            chance.choice(["lost", "kept", "sectors", "sectors", "bytes"]) if kept is None else "kept" if number < kept else "lost"
        )
        if fate == "kept" or fate != "lost" and event.kind == TRUNCATE:
            apply(content, event)
        elif fate != "lost":
            apply_mixed(content, event, chance, SECTOR if fate == "sectors" else chance.choice([1, 1, 8, 64]))
    return bytes(content)


def apply_mixed(content, event, chance, grain):
    """Applies some cells of a write. The file may have got longer by all of it, or by a part."""
    end = event.offset + len(event.data)
    if len(content) < end and chance.random() < 0.5:
        end = min(end, max(len(content), event.offset + chance.randrange(len(event.data) + 1)))
    if end <= event.offset:
        return
    content.extend(bytes(max(0, end - len(content))))
    length, first = end - event.offset, event.offset % grain
    odds = chance.choice([0.5, 0.1, 0.9])
    cells = bytes(255 if chance.random() < odds else 0 for _ in range((first + length) // grain + 1))
    mask = b"".join(bytes([cell]) * grain for cell in cells)[first : first + length]
    new, old, mask = (int.from_bytes(it, "big") for it in (event.data[:length], content[event.offset : end], mask))
    apply(content, event, ((new & mask) | (old & ~mask)).to_bytes(length, "big"))


def write_state(files, folder, chance, mode):
    """Writes what is left of all files into a folder."""
    for path, file in files.items():
        if file.is_named or (mode != "none" and chance.random() >= NAME_IS_LOST):
            (folder / pathlib.Path(path).name).write_bytes(outcome(file, chance, mode))
