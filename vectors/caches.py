"""Compares the cache with a plain reading of its rules, on random scripts of the case kind `cache`.

Usage: python3 vectors/caches.py PROGRAM [COUNT] [FIRST]
       python3 vectors/caches.py cases COUNT FIRST

PROGRAM is osb_cases. Scripts are numbered, and a script's number is the seed of all that is random in it. COUNT of them
from FIRST on are written as case files, with what is due, into a folder of their own, and PROGRAM is run there with the
names of these files. With `cases` the scripts are printed as one case file.
"""

import random
import re
import sys
import tempfile
from collections import Counter
from dataclasses import dataclass, field
from pathlib import Path

from compared import all_agree

CASES_OF_A_FILE = 250
WORKERS = [0, 1]
MOST_WEIGHT = 9
SHARES = {"look": 7, "read": 3, "unpin": 5, "reserve": 6, "put": 12, "commit": 14, "drop": 1, "open": 0.7}
SHARES |= {"counted": 1, "clock": 1}


# ---- the rules


@dataclass
class Entry:
    """What can be read under a key: its chunks' weights, when it was used last, and the worker of each pin."""

    chunks: list
    used: int
    pins: list = field(default_factory=list)

    def size(self):
        return sum(self.chunks)


@dataclass
class Staged:
    """What a worker fills: what it may weigh, how many chunks it is to have, and the chunks it has so far."""

    worker: int
    size: int
    number: int
    chunks: list = field(default_factory=list)

    def is_whole(self):
        return len(self.chunks) == self.number and sum(self.chunks) == self.size


def victims(entries, taken, limit):
    """The keys that leave, so that the entries that stay fit beside what is taken; none where they can't."""
    pinned = sum(entry.size() for entry in entries.values() if entry.pins)
    free = sorted((entry.used, key) for key, entry in entries.items() if not entry.pins)
    for number in range(len(free) + 1):
        stay = sum(entries[key].size() for _, key in free[number:])
        if pinned + stay + taken <= limit:
            return [key for _, key in free[:number]]
    return None


class Cache:
    """Each action gives its reply. A worker reads what it has pinned, and fills what it has reserved."""

    def __init__(self, limit):
        self.limit, self.time, self.entries, self.staged = limit, 0, {}, {}

    def tick(self):
        self.time += 1
        return self.time

    def reserved(self):
        return sum(staged.size for staged in self.staged.values())

    def evict(self, need):
        """How many entries leave for this much room, or none where it can't be had."""
        leaving = victims(self.entries, self.reserved() + need, self.limit)
        if leaving is None:
            return None
        for key in leaving:
            del self.entries[key]
        return len(leaving)

    def look(self, worker, *keys):
        for place, key in enumerate(keys):
            if key in self.entries:
                entry = self.entries[key]
                entry.used = self.tick()
                entry.pins.append(worker)
                return f"hit {place} {key} {len(entry.chunks)}"
        return "miss"

    def read(self, worker, key, place):
        assert worker in self.entries[key].pins
        return str(self.entries[key].chunks[place])

    def unpin(self, worker, key):
        self.entries[key].pins.remove(worker)
        return "unpinned"

    def reserve(self, worker, key, size, number):
        if key in self.entries or key in self.staged:
            return "already"
        if size > self.limit:
            return "too large"
        evicted = self.evict(size)
        if evicted is None:
            return "full"
        self.staged[key] = Staged(worker, size, number)
        return f"room {evicted}"

    def put(self, worker, key, weight):
        staged = self.staged[key]
        staged.chunks.append(weight)
        assert staged.worker == worker and len(staged.chunks) <= staged.number and sum(staged.chunks) <= staged.size
        return "put"

    def commit(self, worker, key):
        staged = self.staged.pop(key)
        assert staged.worker == worker and staged.is_whole()
        self.entries[key] = Entry(staged.chunks, self.tick())
        return "committed"

    def drop(self, worker, key):
        assert self.staged.pop(key).worker == worker
        return "dropped"

    def counted(self):
        return str(sum(entry.size() for entry in self.entries.values()) + self.reserved())

    def clock(self):
        return str(self.time)

    def keys(self):
        return sorted(self.entries, key=lambda key: self.entries[key].used)

    def open(self, limit):
        """The entries, in the order in which they were used, are those of a new cache."""
        kept = {key: self.entries[key].chunks for key in self.keys()}
        self.limit, self.time, self.staged = limit, 0, {}
        self.entries = {key: Entry(chunks, self.tick()) for key, chunks in kept.items()}
        self.evict(0)
        return "opened"


# ---- random scripts


def a_limit(rng):
    return 0 if rng.random() < 0.04 else rng.randrange(MOST_WEIGHT, 3 * MOST_WEIGHT + 1)


def a_size(rng):
    """A size and a number of chunks; mostly one that chunks of the most weight can fill."""
    if rng.random() < 0.06:
        return rng.choice([(0, 0), (0, 1), (3, 0), (5 * MOST_WEIGHT, 2)])
    number = rng.choice([1, 1, 2])
    return sum(rng.randrange(1, MOST_WEIGHT + 1) for _ in range(number)), number


def a_weight(rng, staged):
    """The weight of a staged entry's next chunk; mostly one with which it can be whole at its last chunk."""
    rest = staged.size - sum(staged.chunks)
    is_last = len(staged.chunks) + 1 == staged.number
    return rest if is_last and rng.random() < 0.95 else rng.randrange(rest + 1)


def some_keys(rng, keys, cache):
    """Keys to look for; mostly one of them has an entry, where there is any."""
    sought = rng.sample(keys, rng.choice([1, 1, 2, 3]))
    if cache.entries and rng.random() < 0.6:
        sought[-1] = rng.choice(cache.keys())
    return sought


def a_key(rng, keys, cache):
    """A key to reserve; mostly one with no entry and not staged, where there is any."""
    new = [key for key in keys if key not in cache.entries and key not in cache.staged]
    return rng.choice(new if new and rng.random() < 0.7 else keys)


def choices(rng, cache, keys):
    """For most kinds of actions that can be made one of them, as its name and the words after it."""
    if cache.entries or rng.random() < 0.2:
        yield "look", (rng.choice(WORKERS), *some_keys(rng, keys, cache))
    yield "reserve", (rng.choice(WORKERS), a_key(rng, keys, cache), *a_size(rng))
    yield from [("counted", ()), ("clock", ())]
    if cache.entries or rng.random() < 0.2:
        yield "open", (rng.choice([a_limit(rng), a_limit(rng), rng.randrange(int(cache.counted()) + 1)]),)
    pins = [(worker, key) for key, entry in cache.entries.items() for worker in entry.pins]
    if pins:
        yield "unpin", rng.choice(pins)
    chunks = [(*pin, place) for pin in pins for place in range(len(cache.entries[pin[1]].chunks))]
    if chunks:
        yield "read", rng.choice(chunks)
    tickets = [(staged.worker, key, staged) for key, staged in cache.staged.items()]
    if tickets:
        yield "drop", rng.choice(tickets)[:2]
    begun = [ticket for ticket in tickets if len(ticket[2].chunks) < ticket[2].number]
    if begun:
        worker, key, staged = rng.choice(begun)
        yield "put", (worker, key, a_weight(rng, staged))
    whole = [ticket[:2] for ticket in tickets if ticket[2].is_whole()]
    if whole:
        yield "commit", rng.choice(whole)


def a_script(seed):
    """A limit, the actions of a script, the reply to each, and the keys at its end."""
    rng = random.Random(seed)
    limit = a_limit(rng)
    keys = list(range(1, rng.choice([3, 4, 5]) + 1))
    cache, actions, replies = Cache(limit), [], []
    for _ in range(min(rng.randrange(12, 31), rng.randrange(12, 31))):
        possible = list(choices(rng, cache, keys))
        name, words = rng.choices(possible, [SHARES[name] for name, _ in possible])[0]
        actions.append(" ".join(map(str, [name, *words])))
        replies.append(getattr(cache, name)(*words))
    return limit, actions, replies, cache.keys()


# ---- case files


def case_file(first, count, kinds):
    """The lines of a file of these scripts, whose kinds of replies are counted."""
    yield "call cache"
    for number in range(first, first + count):
        limit, actions, replies, keys = a_script(number)
        kinds.update(re.sub("^(hit )?[0-9].*", r"\1N", reply) for reply in replies)
        yield f"case {number}"
        yield f"limit {limit}"
        yield "script"
        yield from ("    " + action for action in actions)
        yield "due replies parts"
        yield "    hex " + "".join(reply + "\n" for reply in replies).encode().hex()
        yield " ".join(map(str, ["due keys", *keys]))


def compare(program, count, first):
    """Whether the program answers these scripts as the rules above do."""
    kinds = Counter()
    with tempfile.TemporaryDirectory() as folder:
        files = []
        for start in range(first, first + count, CASES_OF_A_FILE):
            lines = case_file(start, min(CASES_OF_A_FILE, first + count - start), kinds)
            files.append(f"caches-{start}.cases")
            Path(folder, files[-1]).write_text("\n".join(lines) + "\n", encoding="utf-8")
        return all_agree(program, folder, files, kinds, count)


def main():
    if sys.argv[1] == "cases":
        count, first = int(sys.argv[2]), int(sys.argv[3])
        print("# Made by `python3 vectors/caches.py " + " ".join(sys.argv[1:]) + "`. A script's name is its seed, and")
        print("# its replies, in hex, are those of the rules in caches.py.")
        print("\n".join(case_file(first, count, Counter())))
        return 0
    count = int(sys.argv[2]) if len(sys.argv) > 2 else 5000
    first = int(sys.argv[3]) if len(sys.argv) > 3 else 1
    return 0 if compare(str(Path(sys.argv[1]).resolve()), count, first) else 1


if __name__ == "__main__":
    sys.exit(main())
