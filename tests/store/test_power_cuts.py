"""Power cuts: a server is recorded while clients edit, and each state that a cut may leave must have all that was sent until then.

Each state is read by stock SQLite, and some of them by the program."""
import collections
import copy
import dataclasses
import json
import os
import pathlib
import random
import shutil
import signal
import sqlite3
import subprocess
import tempfile

import pytest

from store.powercut.load import edit_for, join
from store.powercut.record import DISK, OPEN, SYNC, SYNC_FOLDER, TRUNCATE, WRITE, Logs, read_events, sent_facts
from store.powercut.states import File, follow, outcome, states_at, write_state
from support.server import END, Server

SOURCE = pathlib.Path(__file__).with_name("powercut") / "recorder.c"
FIRST = 90  # events of the disk, those of a new store, after each of which the power is cut
READ = END * 10  # seconds in which the program must have read a state
PAIRS = 60  # of syncs, of which the first one is dropped
STARTS, FEW_STARTS = 10, 40  # of so many states before anything was sent the program starts with one
BLOCK = 1024  # numbers of sessions, which are reserved at once
MEMORY = "/dev/shm" if os.access("/dev/shm", os.W_OK) else None
LINES = "SELECT number, line FROM sdb_line WHERE number > 0 ORDER BY number"  # without the mark
KINDS = {"number", "length", "acknowledgement", "push"}  # of what a client is sent


@pytest.fixture(scope="session")
def recorder(tmp_path_factory):
    compiler = shutil.which("gcc") or shutil.which("cc")
    if not compiler:
        pytest.skip("no C compiler")
    library = tmp_path_factory.mktemp("recorder") / "recorder.so"
    subprocess.run([compiler, "-O1", "-shared", "-fPIC", "-o", library, SOURCE, "-ldl", "-lpthread"], check=True)
    return library


@pytest.fixture
def folder():
    """Returns a folder in memory, if there is one: each state is written and read again."""
    with tempfile.TemporaryDirectory(dir=MEMORY) as name:
        yield pathlib.Path(name)


class Recording:
    """A run of the server under the recorder: its events, what it has sent, and its store at the end. With `start` it starts with
    the files of a state, and `sent` has what was sent before."""

    def __init__(self, program, recorder, folder, seed, seconds, clients, kill=True, start=None, sent=(), **faults):
        self.program, self.recorder, self.folder = program, recorder, folder
        place = pathlib.Path(tempfile.mkdtemp(dir=folder))
        self.store = place / "run" / "store"
        self.store.parent.mkdir()
        self.start = {str(self.store.parent / name): data for name, data in (start or {}).items()}
        for path, data in self.start.items():
            pathlib.Path(path).write_bytes(data)
        settings = {name.upper(): str(value) for name, value in faults.items()}
        settings |= {"RECORD": str(place / "record"), "STORE": str(self.store), "LD_PRELOAD": str(recorder)}
        options = ["--until-eof", "--clients", "1000", "--store", str(self.store)]
        with Server(program, *options, environment=settings) as server:
            running = edit_for(server, seconds, clients, seed)
            if kill:
                server.process.send_signal(signal.SIGKILL)
            else:
                server.process.stdin.close()
            server.process.wait(timeout=END * 2)
            self.acknowledged = join(running)
        self.events = read_events(place / "record")
        self.facts = [(0, fact) for fact in sent] + sent_facts(self.events)
        self.whole = read_logs(self.store_of(self.last_state(), "all", random.Random(seed)))
        self.starts = {}  # what was wrong with the start of each state

    def changed(self, events=None, facts=None):
        """Returns the recording with other events or facts."""
        other = copy.copy(self)
        other.events, other.facts = self.events if events is None else events, self.facts if facts is None else facts
        return other

    def states(self, cuts, ignored=0):
        return states_at(self.events, cuts, ignored, {path: File(data) for path, data in self.start.items()})

    def last_state(self):
        return next(files for _, files in self.states([self.events[-1].end + 1]))

    def store_of(self, files, mode, chance):
        """Writes a state, and returns the path of its store."""
        place = pathlib.Path(tempfile.mkdtemp(dir=self.folder))
        write_state(files, place, chance, mode)
        return place / self.store.name

    def cuts(self, count, chance):
        """Returns so many moments: around calls of the disk, after what was sent, and after each call of a new store."""
        disk = [event for event in self.events if event.kind in DISK]
        cuts = {event.begin + 1 for event in disk[:FIRST]}
        sends = [number for number, _ in self.facts if number]
        cuts |= {number + 1 for number in chance.sample(sends, min(count // 4, len(sends)))}
        for event in chance.sample(disk, min(count, len(disk))):
            cuts.add(chance.choice([event.begin, event.begin + 1, event.end, event.end + 1]))
        return cuts

    def try_states(self, count, seed, ignored=0, read_by_program=0, starts=0, starts_of_new=STARTS):
        """Makes at least so many states, and returns what is wrong with each, and how many there were. The program opens every Nth
        one, and of every Nth one a start is cut too. It starts with every Nth one in which nothing was sent yet."""
        chance, wrong, tried = random.Random(seed), [], 0
        while tried < count:
            for cut, files in self.states(self.cuts(count // 3, chance), ignored):
                facts = [fact for number, fact in self.facts if number < cut]
                modes = ["none"]
                if any(file.pending for file in files.values()):
                    modes += ["mixed", "mixed again", chance.choice(["prefix", "without the last", "all"])]
                for mode in modes:
                    tried += 1
                    store = self.store_of(files, mode, chance)
                    wrong_start = []
                    if starts and tried % starts == 0 and store.exists():
                        wrong_start = [f"then a start: {it}" for it in self.cut_start(store, facts, chance)]
                    found = self.faults_of(store, facts)
                    if not found and not facts and starts_of_new and tried % starts_of_new == 0:
                        found = self.faults_of_start(store)
                    elif not found and facts and read_by_program and tried % read_by_program == 0:
                        found = self.faults_of_program(store, facts)
                    wrong += [f"cut {cut}, {mode}: {it}" for it in found + wrong_start]
                    shutil.rmtree(store.parent)
        return wrong, tried

    def faults_of(self, store, facts):
        if not store.exists():
            return ["the file is missing"] if facts else []
        try:
            logs = read_logs(store)
        except (sqlite3.DatabaseError, ValueError) as error:
            return [repr(error)] if facts else []
        return logs.lost(facts) + self.divergences(logs)

    # A store whose creation was cut can be created again. Equal states are started once.
    def faults_of_start(self, store):
        state = tuple(sorted(contents(store.parent).items()))
        if state not in self.starts:
            command = [self.program, "--lines", "--store", store]
            run = subprocess.run(command, input="", capture_output=True, text=True, timeout=READ, check=False)
            wrong = f"a start has status {run.returncode}: {run.stderr.strip()}"
            self.starts[state] = [wrong] if run.returncode else []
        return self.starts[state]

    # The program reads the state, and doesn't change it.
    def faults_of_program(self, store, facts):
        before = contents(store.parent)
        run = subprocess.run([self.program, "--store", store, "--dump"], capture_output=True, text=True, timeout=READ, check=False)
        if run.returncode != 0:
            return [f"status {run.returncode}: {run.stderr.strip()}"]
        logs = Logs()
        for entry in map(json.loads, run.stdout.splitlines()[1:-1]):
            logs.add(entry)
        changed = [] if contents(store.parent) == before else ["--dump has changed the files"]
        return changed + logs.lost([fact for fact in facts if fact.kind != "number"]) + self.divergences(logs)

    def divergences(self, logs):
        whole = self.whole.entries
        prefixes = [f"the log of {it} is no prefix" for it, log in logs.entries.items() if log != whole.get(it, [])[: len(log)]]
        return prefixes + logs.duplicates()

    # Records a start with the state, and cuts it.
    def cut_start(self, store, facts, chance):
        place = pathlib.Path(tempfile.mkdtemp(dir=self.folder))
        before = contents(store.parent)
        for name, data in before.items():
            (place / name).write_bytes(data)
        settings = {"RECORD": str(place / "record"), "STORE": str(place / store.name), "LD_PRELOAD": str(self.recorder)}
        command = [self.program, "--lines", "--store", place / store.name]
        subprocess.run(command, input="", env=os.environ | settings, capture_output=True, text=True, timeout=READ, check=False)
        events = read_events(place / "record")
        numbers = [event.begin for event in events if event.kind in (WRITE, SYNC, TRUNCATE)]
        found = []
        for cut in chance.sample(numbers, min(2, len(numbers))):
            files = {str(place / name): File(data) for name, data in before.items()}
            for event in events:
                if event.begin < cut and event.kind in DISK and not (event.kind == OPEN and event.path in files):
                    follow(files, event)
            there = pathlib.Path(tempfile.mkdtemp(dir=self.folder))
            for path, file in files.items():
                (there / pathlib.Path(path).name).write_bytes(outcome(file, chance, chance.choice(["none", "mixed", "prefix"])))
            found += self.faults_of(there / store.name, facts)
            shutil.rmtree(there)
        shutil.rmtree(place)
        return found


def contents(folder):
    return {path.name: path.read_bytes() for path in folder.iterdir() if path.is_file()}


def read_logs(store):
    """Returns the logs of a store by stock SQLite, which reads a copy."""
    logs = Logs()
    with tempfile.TemporaryDirectory(dir=store.parent.parent) as folder:
        for path in store.parent.glob(store.name + "*"):
            shutil.copy(path, folder)
        connection = sqlite3.connect(pathlib.Path(folder) / store.name)
        try:
            for place, (number, line) in enumerate(connection.execute(LINES), 1):
                if number != place or line is None:
                    raise ValueError(f"row {number} at place {place}")
                entry = json.loads(line)
                logs.highest = max(logs.highest, entry.get("given", 0), entry.get("by", 0))
                if "given" not in entry:
                    logs.add(entry)
        finally:
            connection.close()
    return logs


def check(recording, count, seed, **options):
    wrong, tried = recording.try_states(count, seed, **options)
    kinds = collections.Counter(fact.kind for _, fact in recording.facts)
    print(f"{recording.acknowledged} acknowledgements, facts sent: {dict(kinds)}, {tried} states, {len(wrong)} wrong")
    assert sum(kinds.values()) > 50 and tried >= count
    assert set(kinds) == KINDS, "the clients weren't sent each kind of fact"
    assert not recording.whole.duplicates()
    assert not wrong, wrong[:10]


def test_states_after_a_kill(program, recorder, folder, seed):
    check(
        Recording(program, recorder, folder, seed, 4, 12), 150, seed, read_by_program=75, starts=100, starts_of_new=FEW_STARTS // 2
    )


def test_states_with_slow_syncs_and_a_graceful_end(program, recorder, folder, seed):
    recording = Recording(program, recorder, folder, seed, 4, 12, kill=False, slow_sync=20_000)
    check(recording, 150, seed, read_by_program=75, starts_of_new=FEW_STARTS)


def test_states_with_failing_writes(program, recorder, folder, seed):
    check(Recording(program, recorder, folder, seed, 4, 16, fail_write=7), 60, seed, starts_of_new=FEW_STARTS)


def test_states_after_a_failed_sync(program, recorder, folder, seed):
    recording = Recording(program, recorder, folder, seed, 4, 24, fail_sync=80)
    check(recording, 60, seed, starts_of_new=FEW_STARTS)
    check_that_a_failed_sync_is_the_last_call(recording)


def check_that_a_failed_sync_is_the_last_call(recording):
    """What a system keeps of earlier writes after a failed sync isn't known, and a later sync may return nevertheless."""
    (failed,) = (event for event in recording.events if event.kind == SYNC and event.result < 0)
    later = [event for event in recording.events if event.kind in (WRITE, SYNC, TRUNCATE) and event.begin > failed.end]
    assert [event.kind for event in later if event.path == failed.path] == []


def test_states_of_a_start_after_a_cut(program, recorder, folder, seed):
    """A cut state is served to clients, and this run is cut too: what was sent before each cut must be there."""
    first = Recording(program, recorder, folder, seed, 3, 12)
    chance = random.Random(seed)
    cut = chance.choice([number for number, _ in first.facts[len(first.facts) // 2 :]]) + 1
    (files,) = (files for _, files in first.states([cut]))
    state = contents(first.store_of(files, "mixed", chance).parent)
    sent = [fact for number, fact in first.facts if number < cut]
    second = Recording(program, recorder, folder, f"{seed} again", 3, 12, start=state, sent=sent)
    assert second.facts[: len(sent)] == [(0, fact) for fact in sent] and len(second.facts) > len(sent) + 20
    check(second, 60, seed)


@pytest.mark.slow
@pytest.mark.parametrize("number", range(6))
def test_a_thousand_states(program, recorder, folder, seed, number):
    faults = [
        {},
        {"slow_sync": 30_000},
        {"fail_write": 11},
        {"slow_sync": 5_000, "kill": False},
        {"kill": False},
        {"fail_sync": 100},
    ]
    recording = Recording(program, recorder, folder, f"{seed}-{number}", 4, 24, **faults[number])
    check(recording, 1_000, seed, read_by_program=40, starts=100)
    if "fail_sync" in faults[number]:
        check_that_a_failed_sync_is_the_last_call(recording)


# Broken inputs, each of which a comparison must find ---------------------------------------------------------------


@pytest.fixture(name="recorded", scope="module")
def recorded_fixture(program, recorder, seed):
    with tempfile.TemporaryDirectory(dir=MEMORY) as name:
        yield Recording(program, recorder, pathlib.Path(name), seed, 3, 8)


def test_ignored_syncs_are_found(recorded, seed):
    """The comparison finds what is lost if each third sync does nothing."""
    wrong, _ = recorded.try_states(90, seed, ignored=3, starts_of_new=0)
    assert any("lost" in it for it in wrong)


def test_a_dropped_sync_is_found(recorded, seed):
    """One sync is missing in the record, and the power is cut before the next one has returned."""
    syncs = sorted((event for event in recorded.events if event.kind == SYNC), key=lambda event: event.end)
    pairs, found = list(zip(syncs, syncs[1:])), 0
    for sync, later in random.Random(seed).sample(pairs, min(PAIRS, len(pairs))):
        changed = recorded.changed([event for event in recorded.events if event is not sync])
        wrong, right = (faults_at(it, later.end, seed) for it in (changed, recorded))
        assert right == []
        found += any("lost Fact(kind='acknowledgement'" in it for it in wrong)
    assert found > 2


def faults_at(recording, cut, seed):
    """Returns what is wrong with some states of one cut."""
    sent = [fact for number, fact in recording.facts if number < cut]
    (files,) = (files for _, files in recording.states([cut]))
    faults = []
    for number in range(3):
        store = recording.store_of(files, "mixed", random.Random(f"{seed}-{number}"))
        faults += recording.faults_of(store, sent)
        shutil.rmtree(store.parent)
    return faults


def test_ignored_syncs_of_the_folder_are_found(recorded, seed):
    changed = recorded.changed([event for event in recorded.events if event.kind != SYNC_FOLDER])
    wrong, _ = changed.try_states(60, seed, starts_of_new=0)
    assert any("the file is missing" in it for it in wrong)


@pytest.mark.parametrize("kind", sorted(KINDS))
def test_facts_that_are_sent_before_they_are_saved_are_found(recorded, seed, kind):
    """Each fact of a kind was sent when the first byte of its kind was sent."""
    first = min(number for number, fact in recorded.facts if fact.kind == kind)
    facts = [(first if fact.kind == kind else number, fact) for number, fact in recorded.facts]
    wrong, _ = recorded.changed(facts=facts).try_states(60, seed, starts_of_new=0)
    if kind == "number":
        # (all numbers of a run are in the first block)
        facts = [(first, dataclasses.replace(fact, version=fact.version + BLOCK)) for _, fact in facts if fact.kind == kind]
        wrong, _ = recorded.changed(facts=facts).try_states(60, seed, starts_of_new=0)
    assert any(f"kind='{kind}'" in it for it in wrong)


DOCTORED = {
    "DELETE FROM sdb_line WHERE number > (SELECT max(number) / 2 FROM sdb_line)": "lost",
    "DELETE FROM sdb_line WHERE number = (SELECT max(number) / 2 FROM sdb_line)": "at place",
    "INSERT INTO sdb_line SELECT max(number) + 1, (SELECT line FROM sdb_line WHERE number = 3) FROM sdb_line": "is stored 2 times",
    """CREATE TEMP TABLE two AS SELECT number, line FROM sdb_line WHERE instr(CAST(line AS TEXT), '"d":"d0"') LIMIT 2 OFFSET 3;
    UPDATE sdb_line SET line = (SELECT line FROM two WHERE number <> sdb_line.number)
    WHERE number IN (SELECT number FROM two)""": "at another version",
    """UPDATE sdb_line SET line = CAST(replace(line, '"si":"x', '"si":"y') AS BLOB)""": "another content",
    "DELETE FROM sdb_line": "may be given again",
    'UPDATE sdb_line SET line = CAST(replace(line, \'"src":"c\', \'"src":"d\') AS BLOB)': "is no prefix",
}


@pytest.mark.parametrize("statements, found", DOCTORED.items(), ids=DOCTORED.values())
def test_changed_lines_are_found(recorded, seed, statements, found):
    """A whole store has no fault, and each change of its lines is found."""
    store = recorded.store_of(recorded.last_state(), "all", random.Random(seed))
    facts = [fact for _, fact in recorded.facts]
    assert recorded.faults_of(store, facts) == []
    connection = sqlite3.connect(store)
    connection.executescript(statements)
    connection.close()
    assert any(found in it for it in recorded.faults_of(store, facts))


def test_a_missing_file_and_a_damaged_one_are_found(recorded, seed):
    """A state without its file, one that is no database, and one in which a byte of a saved group has changed."""
    store = recorded.store_of(recorded.last_state(), "all", random.Random(seed))
    facts = [fact for _, fact in recorded.facts]
    assert recorded.faults_of_program(store, facts) == []
    log = store.with_name(store.name + "-wal")
    data = bytearray(log.read_bytes())
    data[len(data) // 4] ^= 1
    log.write_bytes(data)
    assert recorded.faults_of(store, facts) != []
    assert "damaged" in recorded.faults_of_program(store, facts)[0]
    store.write_text("no database")
    log.unlink()
    assert "DatabaseError" in recorded.faults_of(store, facts)[0]
    assert "status 1" in recorded.faults_of_start(store)[0]
    store.unlink()
    assert recorded.faults_of(store, facts) == ["the file is missing"]


def test_a_program_that_changes_the_files_is_found(recorded, seed):
    store = recorded.store_of(recorded.last_state(), "all", random.Random(seed))
    writer = recorded.folder / "writer"
    writer.write_text(f'#!/bin/sh\n"{recorded.program}" "$@"\nstatus=$?\nprintf x >> "$2-other"\nexit $status\n')
    writer.chmod(0o755)
    changed = recorded.changed()
    changed.program = writer
    assert changed.faults_of_program(store, []) == ["--dump has changed the files"]


def test_what_a_cut_start_loses_is_found(recorded, seed):
    """A start with a whole store leaves all that was sent, and not a longer log."""
    store = recorded.store_of(recorded.last_state(), "all", random.Random(seed))
    facts, last = [fact for _, fact in recorded.facts], max(fact.version for _, fact in recorded.facts if fact.kind == "length")
    later = dataclasses.replace(next(fact for fact in facts if fact.kind == "length"), version=last + 10_000)
    assert set(recorded.cut_start(store, [*facts, later], random.Random(seed))) == {f"lost {later}"}
