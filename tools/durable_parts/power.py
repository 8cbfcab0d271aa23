"""Replays a part of the recorded writes of a run, as a power cut may leave them.

The model is that of the toolchain's sqlite_disk under `Unknown`: what a file had when it was last synced stays. Of the writes since
then, each byte below the old end is the old one or one that was written there, in any order of the writes; its end is anywhere between
the old one and the new one, and what lies past the old end is anything. Here a write is torn at sectors, or now and then inside them."""
import os
import random
import tempfile
from typing import NamedTuple

from durable_parts.calls import Cookies, History, cookies_of, random_batches
from durable_parts.session import FILES, NAME, Failed, check_prefix, check_whole, mapped, run
from durable_parts.shim import events, preloaded

CALLS = 700  # more than fit the log before it is copied into the database file
AGAIN, FEW = 10, 8  # power cuts after which the program runs again, and its calls then
SECTOR = 512
ODD = 7  # bytes, so that a sector is torn too
EARLY = 60  # events in which a new file is made
LATER = 20  # events after a copied page, in which the log is begun anew
FOLDER = '.'


class Way(NamedTuple):
    """How writes are applied: each is torn into pieces of this size, or not if 0, of which this part is written."""
    size: int
    part: float


WAYS = [Way(SECTOR, 0.5), Way(SECTOR, 0.1), Way(SECTOR, 0.9), Way(0, 0.5), Way(0, 0), Way(0, 1), Way(ODD, 0.5)]


def filling(rng, length):
    """What lies past the old end of a file."""
    garbage = rng.getrandbits(8 * length + 8).to_bytes(length + 1, 'big')[1:]
    return rng.choice([bytes(length), b'\xff' * length, garbage])


def resized(rng, data, length):
    """Moves the end of the data to this one, or not as far."""
    low, high = sorted([len(data), length])
    length = rng.choice([low, high, rng.randint(low, high)])
    del data[length:]
    data += filling(rng, length - len(data))


def torn(rng, way, data, event):
    """Applies a part of a write."""
    ends = event.place + len(event.data)
    if ends > len(data):
        resized(rng, data, ends)
    at = event.place
    while at < min(ends, len(data)):
        end = min(ends, len(data), at + way.size - at % way.size if way.size else ends)
        if rng.random() < way.part:
            data[at:end] = event.data[at - event.place:end - event.place]
        at = end


def applied(data, event):
    """Applies a whole call."""
    if event.call == 'cut':
        del data[event.place:]
    ends = event.place + len(event.data)
    data += bytes(max(0, ends - len(data)))
    data[event.place:ends] = event.data


class Disk:
    """The files of a folder: what each had when it was last synced, and its calls since then."""

    def __init__(self, files):
        self.synced = {name: bytearray(data) for name, data in files.items()}
        self.pending: dict = {name: [] for name in files}
        self.are_named = bool(files)  # whether the folder was synced since the files are there

    def take(self, event):
        """The next call of the record."""
        self.are_named |= event.name == FOLDER
        if event.name not in FILES:
            return
        data, pending = self.synced.setdefault(event.name, bytearray()), self.pending.setdefault(event.name, [])
        if event.call == 'sync':
            for each in pending:
                applied(data, each)
            pending.clear()
        else:
            pending.append(event)

    def seen(self):
        """What the files have while there is power."""
        files = {name: bytearray(data) for name, data in self.synced.items()}
        for name, pending in self.pending.items():
            for event in pending:
                applied(files[name], event)
        return files

    def left(self, rng):
        """What a power cut may leave of the files."""
        files: dict = {}
        way = rng.choice(WAYS)
        for name, synced in self.synced.items():
            if not self.are_named and rng.random() < 0.5:
                continue
            files[name] = data = bytearray(synced)
            for event in self.pending[name]:
                if event.call == 'cut':
                    resized(rng, data, event.place)
                else:
                    torn(rng, way, data, event)
        return files


def written(folder, files):
    os.mkdir(folder)
    for name, data in files.items():
        with open(os.path.join(folder, name), 'wb') as file:
            file.write(data)
    return folder


class Recorded:
    """A run on files, what it did, and its calls on the files."""

    def __init__(self, program, library, folder, files, history):
        self.program, self.folder, self.files, self.history = program, folder, files, history
        record = f'{folder}/record'
        with tempfile.TemporaryDirectory(dir=folder) as room:
            own = written(f'{room}/files', files)
            check_whole(history, run(program, own, history.calls, preloaded(library, own, CALLS_RECORD=record)))
            self.events = list(events(record))
            self.check(own)
        os.remove(record)

    def check(self, folder):
        """The record makes the files that there are."""
        disk = Disk(self.files)
        for event in self.events:
            disk.take(event)
        for name, data in disk.seen().items():
            with open(os.path.join(folder, name), 'rb') as file:
                if file.read() != data:
                    raise Failed(f'the record lacks calls on {name}')

    def moments(self, rng, count):
        """The numbers of the events before which the power is cut: while the file is new, while the log is copied into the database
        file, or any."""
        whole = range(len(self.events) + 1)
        spans = [whole[:EARLY], whole, self.copying() or whole]
        return sorted(rng.choice(rng.choice(spans)) for _ in range(count))

    def copying(self):
        """The numbers of the events from a write to a database file that is there to some later ones."""
        found = [at for at, event in enumerate(self.events) if at >= EARLY and event.call == 'write' and event.name == NAME]
        return sorted({later for at in found for later in range(at, at + LATER) if later <= len(self.events)})

    def is_copied_by_call(self):
        """Whether a call copies the log into the database file, and not only the end of the run."""
        copies = self.copying()
        return bool(copies) and sum(event.call == 'print' for event in self.events[:copies[0]]) < len(self.history.calls)

    def cuts(self, rng, count):
        """How many calls were acknowledged before each power cut, and the files that it leaves."""
        disk, acknowledged, done = Disk(self.files), 0, 0
        for at in self.moments(rng, count):
            for event in self.events[done:at]:
                disk.take(event)
                acknowledged += event.data.count(b'\n') if event.call == 'print' else 0
            done = max(done, at)
            # The lines after those for the calls are the cookies.
            yield min(acknowledged, len(self.history.calls)), disk.left(rng)

    def check_cut(self, cut):
        """Returns the files that a power cut left, and the rows in them."""
        acknowledged, files = cut
        with tempfile.TemporaryDirectory(dir=self.folder) as room:
            held = check_prefix(self.program, written(f'{room}/files', files), self.history, acknowledged)
        return files, self.history.states[held]

    def check_cuts(self, pool, rng, count, kept=0):
        """Cuts the power so many times. Returns what some of the cuts left."""
        chosen = set(rng.sample(range(count), kept))
        cuts = mapped(pool, self.check_cut, self.cuts(random.Random(rng.random()), count))
        return [left for number, left in enumerate(cuts) if number in chosen]


def check(program, library, folder, pool, rng, count):
    """Cuts the power so many times in one run, and again in runs on some of the files that this left. Returns how many times in all."""
    first = Recorded(program, library, folder, {}, History(Cookies(), random_batches(rng, CALLS)))
    if not first.is_copied_by_call():
        raise Failed(f'the log is not copied into the database file in {CALLS} calls')
    for files, rows in first.check_cuts(pool, rng, count, AGAIN):
        again = Recorded(program, library, folder, files, History(cookies_of(rows), random_batches(rng, FEW)))
        again.check_cuts(pool, rng, AGAIN)
    return count + AGAIN * AGAIN
