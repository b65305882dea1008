"""Prints the cases of the machine: schedules of workers with the logs that are due, by a plain reading of the rules.

Usage: python3 vectors/schedules.py > crates/osb_cases/data/schedules.cases
       python3 vectors/schedules.py refusals > crates/osb_cases/data/schedule-refusals.cases
       python3 vectors/schedules.py explore FOLDER

With `refusals` memory is refused at each turn of a schedule. With `explore` every interleaving of two workers over a
small plan is written into case files of FOLDER, for a limit at which entries are evicted.

The jobs are those of jobs.py. A cache is a list of entries by rising time of use, and a board a list of words.
"""

import itertools
import os
import sys

import idents
import jobs
from jobs import Refused, Task, block, manifest, small, tree

UNLIMITED = 2**62


# ---- the rules


class Cache:
    def __init__(self, limit, opening):
        """`opening`: entries as keys with the sizes of their chunks, first the one that was used first."""
        self.limit = limit
        self.lines = [{"key": key, "chunks": list(chunks), "pins": []} for key, chunks in opening]
        self.staged = []
        self.evict(0)
        kept = len(self.lines)
        self.opened = f"open {kept} {self.counted()} {len(opening) - kept}"

    def counted(self):
        return sum(sum(line["chunks"]) for line in self.lines) + sum(draft["size"] for draft in self.staged)

    def find(self, key):
        return next((line for line in self.lines if line["key"] == key), None)

    def evict(self, more):
        """Entries that are not pinned leave, first the one that was used first, until so much more fits."""
        gone = 0
        for line in list(self.lines):
            if self.counted() + more <= self.limit:
                break
            if not line["pins"]:
                self.lines.remove(line)
                gone += 1
        return gone

    def look(self, worker, keys):
        for place, key in enumerate(keys):
            line = self.find(key)
            if line:
                self.lines.remove(line)
                self.lines.append(line)
                line["pins"].append(worker)
                return place
        return None

    def reserve(self, worker, key, size, count):
        if self.find(key) or any(draft["key"] == key for draft in self.staged):
            return "already"
        if size > self.limit:
            return "too large"
        pinned = sum(sum(line["chunks"]) for line in self.lines if line["pins"])
        if pinned + sum(draft["size"] for draft in self.staged) + size > self.limit:
            return "full"
        gone = self.evict(size)
        self.staged.append({"worker": worker, "key": key, "size": size, "count": count, "chunks": []})
        return f"room {gone}"

    def draft(self, worker, key):
        return next(draft for draft in self.staged if draft["worker"] == worker and draft["key"] == key)

    def put(self, worker, key, weight):
        draft = self.draft(worker, key)
        draft["chunks"].append(weight)
        return len(draft["chunks"]) - 1

    def commit(self, worker, key):
        draft = self.draft(worker, key)
        assert len(draft["chunks"]) == draft["count"] and sum(draft["chunks"]) == draft["size"]
        self.staged.remove(draft)
        self.lines.append({"key": key, "chunks": draft["chunks"], "pins": []})

    def drop(self, worker, key):
        self.staged.remove(self.draft(worker, key))


def word_of(outcome):
    first = outcome.split()[0]
    return {"tree": "tree", "blocked": "blocked", "no": "no memory"}.get(first, "fault")


class Machine:
    def __init__(self, tasks, limit, opening, workers):
        self.tasks = tasks
        self.cache = Cache(limit, opening)
        self.board = ["waiting"] * len(tasks)
        self.outcomes = ["no memory"] * len(tasks)
        self.log = []
        self.jobs = [jobs.job(tasks) for _ in range(workers)]
        self.wants = [next(job) for job in self.jobs]

    def claim(self):
        if "waiting" not in self.board:
            return "over"
        for number, task in enumerate(self.tasks):
            if self.board[number] == "waiting" and all(self.board[dep] == "done" for dep in task.deps):
                return f"task {number}"
        return "idle"

    def turn(self, worker, flag):
        """A turn of a worker: false where it has ended or left, or has to wait."""
        action = self.wants[worker]
        if action == "none" or (action == "claim" and self.claim() == "idle"):
            return False
        if flag == "a" and action.split()[0] in jobs.MAY_BE_REFUSED:
            self.wants[worker] = jobs.step(self.jobs[worker], "refuse")
            return True
        reply = self.act(worker, action)
        self.wants[worker] = jobs.step(self.jobs[worker], reply + (" refused" if flag == "w" else ""))
        return True

    def note(self, worker, words):
        self.log.append(f"{len(self.log) + 1} {worker} {words}")

    def act(self, worker, action):
        """Plays an action, notes it, and gives the reply."""
        word, *rest = action.split()
        if word == "claim":
            return self.act_claim(worker)
        if word == "fetch":
            outcome = word_of(self.outcomes[int(rest[0])])
            self.note(worker, f"fetch {rest[0]} {outcome}")
            return "fetched" if outcome == "tree" else outcome
        if word == "look":
            return self.act_look(worker, int(rest[0]))
        if word == "reserve":
            key, size, count = map(int, rest)
            reply = self.cache.reserve(worker, key, size, count)
            self.note(worker, f"reserve {key} {reply}")
            return "room" if reply.startswith("room") else reply
        if word == "done":
            number, outcome = int(rest[0]), " ".join(rest[1:])
            assert self.board[number] == worker
            self.board[number], self.outcomes[number] = "done", outcome
            self.note(worker, f"done {number} {word_of(outcome)}")
            return "ok"
        return self.act_on_entry(worker, word, int(rest[0]), rest[1:])

    def act_claim(self, worker):
        reply = self.claim()
        if reply == "over":
            self.note(worker, "over")
        else:
            number = int(reply.split()[1])
            self.board[number] = worker
            self.note(worker, f"claim {number}")
        return reply

    def act_look(self, worker, number):
        task = self.tasks[number]
        place = self.cache.look(worker, task.marked)
        self.note(worker, "look miss" if place is None else f"look hit {task.marked[place]}")
        return "miss" if place is None else f"hit {place}"

    def act_on_entry(self, worker, word, key, rest):
        if word == "read":
            assert worker in self.cache.find(key)["pins"]
            self.note(worker, f"read {key} {rest[0]}")
            return "chunk"
        if word == "unpin":
            self.cache.find(key)["pins"].remove(worker)
            self.note(worker, f"unpin {key}")
        elif word == "put":
            self.note(worker, f"put {key} {self.cache.put(worker, key, int(rest[1]))}")
        elif word == "commit":
            self.cache.commit(worker, key)
            self.note(worker, f"commit {key}")
        elif word == "drop":
            self.cache.drop(worker, key)
            self.note(worker, f"drop {key}")
        else:
            raise ValueError(word)
        return "ok"

    def entries(self):
        return [(line["key"], line["chunks"]) for line in self.cache.lines]

    def check(self):
        """What holds in every state, whatever the schedule."""
        assert self.cache.counted() <= self.cache.limit
        keys = [line["key"] for line in self.cache.lines] + [draft["key"] for draft in self.cache.staged]
        assert len(keys) == len(set(keys))


# ---- running schedules


def run(tasks, limit, opening, workers, schedule):
    machine = Machine(tasks, limit, opening, workers)
    for worker, flag in schedule:
        machine.turn(worker, flag)
        machine.check()
    return machine


def serial(tasks, limit, opening=()):
    machine = Machine(tasks, limit, list(opening), 1)
    while machine.turn(0, ""):
        machine.check()
    return machine


def to_the_end(tasks, limit, opening, workers, begin, order):
    """A schedule that begins so and goes on in this order of workers until all have stopped."""
    schedule = list(begin)
    machine = run(tasks, limit, opening, workers, schedule)
    while True:
        stopped = True
        for worker in order:
            went = machine.turn(worker, "")
            if went:
                stopped = False
            schedule.append((worker, ""))
        if stopped:
            return schedule[: len(schedule) - len(order)]


# ---- case files


def turns_text(schedule):
    words = [f"{worker}{flag}" for worker, flag in schedule]
    return [" ".join(words[start : start + 30]) for start in range(0, len(words), 30)]


def due_text(machine, counted):
    entries = [f"{key} {sum(chunks)}" for key, chunks in machine.entries()]
    lines = ["due log", *(f"    {line}" for line in [machine.cache.opened, *machine.log])]
    lines += ["due entries", *(f"    {line}" for line in entries)]
    lines += ["due outcomes", *(f"    {outcome}" for outcome in machine.outcomes)]
    if counted:
        lines.append(f"due counted {machine.cache.counted()}")
    return "\n".join(lines) + "\n"


class Group:
    """Cases over the builds of one case's manifests."""

    def __init__(self, comment, files, builds, words, tasks):
        lines = "".join(f"build {file} {exports}\n" for file, exports in builds)
        self.comment, self.head, self.tasks = comment, f"words {words}\n{lines}{files}", tasks
        self.cases = []

    def schedule(self, name, limit, workers, schedule, first=None):
        """`first`: the limit of a run of one worker before, whose entries the cache is opened with."""
        opening = [] if first is None else serial(self.tasks, first).entries()
        machine = run(self.tasks, limit, opening, workers, schedule)
        given = f"limit {limit}\n" + ("" if first is None else f"first {first}\n")
        text = f"case {name}\n{given}workers {workers}\nschedule\n{block(turns_text(schedule))}{due_text(machine, True)}"
        self.cases.append(("schedule", text))
        return machine

    def serial(self, name, limit, first=None):
        opening = [] if first is None else serial(self.tasks, first).entries()
        machine = serial(self.tasks, limit, opening)
        given = f"limit {limit}\n" + ("" if first is None else f"first {first}\n")
        self.cases.append(("serial", f"case {name}\n{given}{due_text(machine, False)}"))
        return machine

    def text(self):
        parts = []
        for kind in ["serial", "schedule"]:
            cases = [text for call, text in self.cases if call == kind]
            if cases:
                parts.append(f"# {self.comment}\n\ncall {kind}\n{self.head}")
                parts += cases
        return "\n".join(parts)


# Row by row: two manifests that share a build pipeline and the first stages of `os`.
HELLO = "5891b5b522d5df086d0ff0b110fbd9d21bb4fc7163af34d08286a2e846f6be03"


def image(name, hostname):
    return manifest(
        name,
        """
{"version":"2",
 "sources":{"org.osbuild.inline":{"items":{"sha256:H":{"encoding":"base64","data":"aGVsbG8K"}}}},
 "pipelines":[
  {"name":"build","runner":"org.osbuild.linux","stages":[
   {"type":"org.osbuild.mkdir","options":{"paths":[{"path":"/usr/sbin","parents":true}]}},
   {"type":"org.osbuild.copy",
    "inputs":{"tools":{"type":"org.osbuild.files","origin":"org.osbuild.source","references":["sha256:H"]}},
    "options":{"paths":[{"from":"input://tools/sha256:H","to":"tree:///usr/sbin/useradd"},
                        {"from":"input://tools/sha256:H","to":"tree:///usr/sbin/groupadd"}]}},
   {"type":"org.osbuild.chmod","options":{"items":{"/usr/sbin/groupadd":{"mode":"0755"},
                                                    "/usr/sbin/useradd":{"mode":"0755"}}}}]},
  {"name":"os","build":"name:build","stages":[
   {"type":"org.osbuild.mkdir","options":{"paths":[{"path":"/etc"}]}},
   {"type":"org.osbuild.groups","options":{"groups":{"wheel":{"gid":10}}}},
   {"type":"org.osbuild.users","options":{"users":{"admin":{"groups":["wheel"]}}}},
   {"type":"org.osbuild.hostname","options":{"hostname":"NAME"}},
   {"type":"org.osbuild.locale","options":{"language":"en_US.UTF-8"}}]}]}
""".replace("H\"", HELLO + '"').replace("NAME", hostname),
    )


def two_images():
    build, os_tree, some = small(381, 5), small(773, 9), small(500, 5)
    tasks = [
        Task([0, 1, 2], [2], made=[some, some, build]),
        Task([3, 4, 5, 6, 7], [7], [0], made=[some, some, some, some, os_tree]),
        Task([3, 4, 5, 8, 9], [9], [0], made=[some, some, some, some, os_tree]),
    ]
    group = Group(
        "Two images that share their build pipeline, one of them the other with another name.",
        image("a.json", "img") + image("b.json", "two"),
        [("a.json", "os"), ("b.json", "os")],
        "*",
        tasks,
    )
    cold = group.serial("two images are built", UNLIMITED)
    assert len(cold.log) == 21 and sum(task.ran for task in tasks) == 13
    before = sum(task.ran for task in tasks)
    warm = group.serial("two images are built over the entries of the run before", UNLIMITED, first=UNLIMITED)
    assert len(warm.log) == 18 and sum(task.ran for task in tasks) == 2 * before
    group.serial("a limit at which each image evicts the one before", 1154)
    group.serial("a limit at which an image evicts its build tree", 773)
    group.serial("an opening that is evicted in part", 1154, first=UNLIMITED)
    return group


ETC = """
{"version":"2","pipelines":[
 {"name":"os","stages":[{"type":"org.osbuild.mkdir","options":{"paths":[{"path":"/etc"}]}}]}]}
"""


def one_directory():
    tasks = [Task([0], [0], made=[small(133, 2)])]
    group = Group("One directory, whose tree has 133 bytes.", manifest("m.json", ETC), [("m.json", "os")], "*", tasks)
    group.serial("a limit of just its bytes", 133)
    group.serial("a limit of one byte less", 132)
    group.serial("a limit of nothing", 0)
    turns = [(0, ""), (0, ""), (0, "w"), (0, ""), (0, ""), (0, "")]
    refused = group.schedule("the work behind a reserve is refused memory", 133, 1, turns)
    assert [line.split()[2] for line in refused.log] == ["claim", "look", "reserve", "drop", "done", "over"]
    assert refused.cache.counted() == 0 and not refused.entries()
    return group


SHARED_STAGE = """
{"version":"2","pipelines":[
 {"name":"one","stages":[
  {"type":"org.osbuild.mkdir","options":{"paths":[{"path":"/a"}]}},
  {"type":"org.osbuild.mkdir","options":{"paths":[{"path":"/m"}]}},
  {"type":"org.osbuild.mkdir","options":{"paths":[{"path":"/b"}]}}]},
 {"name":"two","stages":[
  {"type":"org.osbuild.mkdir","options":{"paths":[{"path":"/a"}]}},
  {"type":"org.osbuild.mkdir","options":{"paths":[{"path":"/m"}]}},
  {"type":"org.osbuild.mkdir","options":{"paths":[{"path":"/c"}]}}]}]}
"""


def shared_stage():
    import json

    word = idents.manifest_ids(json.loads(SHARED_STAGE))["one"][1]
    sizes = [small(131, 2), small(197, 3), small(263, 4)]
    tasks = [Task([0, 1, 2], [1], made=sizes), Task([0, 1, 3], [1], made=sizes)]
    group = Group(
        "Two tasks with the same marked stage in their middle.",
        manifest("m.json", SHARED_STAGE),
        [("m.json", "one,two")],
        word,
        tasks,
    )
    # Both look before either reserves; the second reserves while the first one's is staged, which is then dropped.
    turns = [(0, ""), (1, ""), (0, ""), (1, ""), (0, ""), (1, ""), (0, ""), (0, "")]
    turns[4] = (0, "w")
    turns = to_the_end(tasks, UNLIMITED, [], 2, turns[:6], [1, 0])
    machine = group.schedule("an entry is already staged, and then dropped for want of memory", UNLIMITED, 2, turns)
    assert "reserve 1 already" in "\n".join(machine.log)
    assert machine.outcomes == ["no memory", "tree 263"]
    both = to_the_end(tasks, UNLIMITED, [], 2, [(0, ""), (1, "")] * 3, [0, 1])
    group.schedule("an entry is already staged, and then committed", UNLIMITED, 2, both)
    later = to_the_end(tasks, UNLIMITED, [], 2, [(0, "")] * 5, [1, 0])
    group.schedule("the second hits what the first has committed", UNLIMITED, 2, later)
    return group


# The three of jobs.py, and one that begins as the first.
FOUR = f"""{jobs.DEPS.strip().removesuffix("]}")},
 {{"name":"ad","stages":[
  {{"type":"org.osbuild.mkdir","options":{{"paths":[{{"path":"/a"}}]}}}},
  {{"type":"org.osbuild.mkdir","options":{{"paths":[{{"path":"/d"}}]}}}}]}}]}}
"""
FOUR_TASKS = [
    Task([0], [0], made=[small(131, 2)]),
    Task([1], [1], made=[small(131, 2)]),
    Task([2, 3], [3], [0, 1], made=[small(197, 3), small(263, 4)]),
    Task([0, 4], [4, 0], made=[small(131, 2), small(197, 3)]),
]
FOUR_SIZE = 131 + 131 + 263 + 197


def four_group(comment):
    return Group(comment, manifest("m.json", FOUR), [("m.json", "a,b,ab,ad")], "*", FOUR_TASKS)


def some_order(seed, workers, count):
    """Workers in an order that is told by a number."""
    order = []
    for _ in range(count):
        seed = (seed * 1103515245 + 12345) % 2**31
        order.append((seed >> 16) % workers)
    return order


LIMITS = [
    ("nothing fits", 0),
    ("a limit of one byte", 1),
    ("one byte less than all", FOUR_SIZE - 1),
    ("just enough for all", FOUR_SIZE),
    ("no limit", UNLIMITED),
    ("room for two small trees", 262),
    ("room for the largest", 263),
]


def four_tasks():
    group = four_group("Four tasks, of which one is built with two others, and one begins as another.")
    tasks = FOUR_TASKS
    for name, limit in LIMITS:
        group.serial(f"one worker, {name}", limit)
        group.schedule(f"two workers in turn, {name}", limit, 2, to_the_end(tasks, limit, [], 2, [], [0, 1]))
        group.schedule(f"three workers in turn, {name}", limit, 3, to_the_end(tasks, limit, [], 3, [], [0, 1, 2]))
        for seed in [1, 2]:
            begin = [(worker, "") for worker in some_order(seed, 3, 60)]
            turns = to_the_end(tasks, limit, [], 3, begin, [0, 1, 2])
            group.schedule(f"three workers in some order, {name}, {seed}", limit, 3, turns)
    warm = to_the_end(tasks, FOUR_SIZE, serial(tasks, UNLIMITED).entries(), 2, [], [0, 1])
    group.schedule("two workers over the entries of a run before", FOUR_SIZE, 2, warm, first=UNLIMITED)
    small_limit = to_the_end(tasks, 400, serial(tasks, UNLIMITED).entries(), 2, [], [0, 1])
    group.schedule("two workers over entries that are evicted in part", 400, 2, small_limit, first=UNLIMITED)
    group.schedule("no turn", UNLIMITED, 2, [])
    group.schedule("a worker waits at an idle claim, whatever its flag", UNLIMITED, 3, [(0, ""), (1, ""), (2, ""), (0, ""), (0, ""), (0, ""), (1, "a")])
    group.schedule("pins hold while others reserve", 263, 2, pins_hold())
    return group


def pins_hold():
    """Worker 0 commits the tree of `a`; worker 1 hits it for `ad` and holds the pin while worker 0 reserves."""
    return [(0, "")] * 6 + [(0, "")] + [(1, "")] * 2 + [(0, "")] * 6 + [(1, "")] * 8


def refusals():
    group = four_group("Memory refused at each turn of two workers over four tasks.")
    whole = to_the_end(FOUR_TASKS, FOUR_SIZE, [], 2, [], [0, 1])
    for place in range(len(whole)):
        for flag, name in [("a", "action"), ("w", "work")]:
            begin = [*whole[:place], (whole[place][0], flag)]
            turns = to_the_end(FOUR_TASKS, FOUR_SIZE, [], 2, begin, [0, 1] if whole[place][0] else [1, 0])
            group.schedule(f"turn {place + 1} is refused memory for its {name}", FOUR_SIZE, 2, turns)
    return group


WIDE_MANIFEST = """file m.json parts
    text {"version":"2","pipelines":[
    text {"name":"wide","stages":[{"type":"org.osbuild.mkdir","options":{"paths":[
    count 255 {"path":"/d#"},
    text {"path":"/d255"}]}}]},
    text {"name":"more","stages":[{"type":"org.osbuild.mkdir","options":{"paths":[
    count 255 {"path":"/d#"},
    text {"path":"/d255"}]}},{"type":"org.osbuild.mkdir","options":{"paths":[{"path":"/e"}]}}]},
    text {"name":"small","stages":[{"type":"org.osbuild.mkdir","options":{"paths":[{"path":"/s"}]}}]}]}
"""


def chunked():
    wide = jobs.wide()
    more = tree(jobs.WIDE_SIZE + 66, (256, jobs.WIDE_SIZE - 67), (2, 67 + 66))
    tasks = [Task([0], [0], made=[wide]), Task([0, 1], [1, 0], made=[wide, more]), Task([2], [2], made=[small(131, 2)])]
    group = Group("Trees of two chunks.", WIDE_MANIFEST, [("m.json", "wide,more,small")], "*", tasks)
    for name, limit in [("no limit", UNLIMITED), ("room for the small tree and one other", jobs.WIDE_SIZE + 66 + 131), ("room for one", jobs.WIDE_SIZE)]:
        group.schedule(f"two workers in turn, trees of two chunks, {name}", limit, 2, to_the_end(tasks, limit, [], 2, [], [0, 1]))
        opening = serial(tasks, UNLIMITED).entries()
        turns = to_the_end(tasks, limit, opening, 2, [], [0, 1])
        group.schedule(f"two workers in turn over entries of two chunks, {name}", limit, 2, turns, first=UNLIMITED)
    return group


HEAD = """# The machine: what a schedule of workers{} leaves. Printed by vectors/schedules.py, a plain reading of the
# rules.
"""


# ---- every interleaving


def interleavings(tasks, limit, opening):
    """The schedules of two workers, without turns that change nothing, by depth first."""

    def moves(schedule):
        for worker in [0, 1]:
            machine = run(tasks, limit, opening, 2, [*schedule, (worker, "")])
            if len(machine.log) > len(run(tasks, limit, opening, 2, schedule).log):
                yield worker

    def walk(schedule):
        ended = True
        for worker in moves(schedule):
            ended = False
            yield from walk([*schedule, (worker, "")])
        if ended:
            yield schedule

    return walk([])


APART = """
{"version":"2","pipelines":[
 {"name":"one","stages":[{"type":"org.osbuild.mkdir","options":{"paths":[{"path":"/a"}]}}]},
 {"name":"two","stages":[{"type":"org.osbuild.mkdir","options":{"paths":[{"path":"/b"}]}}]}]}
"""
SHARING = """
{"version":"2","pipelines":[
 {"name":"one","stages":[{"type":"org.osbuild.mkdir","options":{"paths":[{"path":"/a"}]}}]},
 {"name":"two","stages":[
  {"type":"org.osbuild.mkdir","options":{"paths":[{"path":"/a"}]}},
  {"type":"org.osbuild.mkdir","options":{"paths":[{"path":"/b"}]}}]}]}
"""
A_SIZE, AB_SIZE = 131, 197


def explored():
    """Manifests with their tasks, limits, and the limit of a run before, if any."""
    apart = [Task([0], [0], made=[small(A_SIZE, 2)]), Task([1], [1], made=[small(A_SIZE, 2)])]
    sharing = [Task([0], [0], made=[small(A_SIZE, 2)]), Task([0, 1], [1, 0], made=[small(A_SIZE, 2), small(AB_SIZE, 3)])]
    for limit in [A_SIZE, 2 * A_SIZE - 1, 2 * A_SIZE]:
        yield APART, apart, limit, None
    yield APART, apart, A_SIZE, UNLIMITED
    for limit in [AB_SIZE, A_SIZE + AB_SIZE]:
        yield SHARING, sharing, limit, None
    yield SHARING, sharing, AB_SIZE, UNLIMITED
    yield SHARING, sharing, A_SIZE, UNLIMITED


def explore(folder):
    count = 0
    for number, (text, tasks, limit, first) in enumerate(explored()):
        opening = [] if first is None else serial(tasks, first).entries()
        schedules = interleavings(tasks, limit, opening)
        for part in itertools.count():
            some = list(itertools.islice(schedules, 500))
            if not some:
                break
            count += len(some)
            group = Group("", manifest("m.json", text), [("m.json", "one,two")], "*", tasks)
            for place, schedule in enumerate(some):
                group.schedule(f"{number} {part} {place}", limit, 2, schedule, first=first)
            with open(os.path.join(folder, f"{number}-{part}.cases"), "w", encoding="utf-8") as file:
                file.write(group.text())
    print(f"{count} schedules")


def main():
    if sys.argv[1:2] == ["explore"]:
        explore(sys.argv[2])
        return
    if sys.argv[1:] == ["refusals"]:
        texts = [HEAD.format(", with memory refused at each turn,"), refusals().text()]
    else:
        groups = [two_images(), one_directory(), shared_stage(), four_tasks(), chunked()]
        texts = [HEAD.format(""), *(group.text() for group in groups)]
    print("\n".join(texts), end="")


if __name__ == "__main__":
    main()
