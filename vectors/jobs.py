"""Prints the cases of a worker's job: scripts of replies with the actions that are due, by a plain reading of the rules.

Usage: python3 vectors/jobs.py > crates/osb_cases/data/jobs.cases
       python3 vectors/jobs.py refusals > crates/osb_cases/data/job-refusals.cases

With `refusals` each script is there with memory refused at each of its steps.

A job is a generator here: it yields each action, is sent the reply, and memory that is refused is an exception at the
action that it waits at. What stages make is written down beside the manifests: sizes, chunks and faults.
"""

import sys


class Refused(Exception):
    """Memory was refused."""


# ---- plans: what a job has to know of them


def tree(size, *chunks):
    """A stage's tree: its size, and for each of its chunks the pairs and the weight; one chunk where none is given."""
    return {"size": size, "chunks": list(chunks)}


def small(size, pairs):
    return tree(size, (pairs, size))


class Task:
    def __init__(self, keys, marked=(), deps=(), made=None):
        """`made`: what each stage makes of the tree before it, a tree or the words of a fault."""
        self.keys, self.marked, self.deps, self.made = keys, list(marked), list(deps), made
        self.ran = 0  # how many stages


# ---- the rules


def job(tasks):
    while True:
        claimed = yield "claim"
        if claimed == "over":
            return
        if claimed == "idle":
            continue
        number = int(claimed.split()[1])
        held = {}
        try:
            outcome = yield from outcome_of(tasks[number], number, held)
        except Refused:
            outcome = "no memory"
            if "pin" in held:
                yield f"unpin {held['pin']}"
            if "ticket" in held:
                yield f"drop {held['ticket']}"
        try:
            yield f"done {number} {outcome}"
        except Refused:
            # It was refused to the work behind the last reply.
            yield f"done {number} no memory"


def outcome_of(task, number, held):
    fetched = []
    for dep in task.deps:
        fetched.append((yield f"fetch {dep}"))
    if "no memory" in fetched:
        return "no memory"
    if any(word != "fetched" for word in fetched):
        return "blocked"
    run, size = 0, 65
    if task.marked:
        looked = yield f"look {number}"
        if looked != "miss":
            key = task.marked[int(looked.split()[1])]
            run, size = yield from read(task, key, held)
    return (yield from build(task, run, size, held))


def read(task, key, held):
    """The tree of an entry: how many stages are behind it, and its size."""
    held["pin"] = key
    run = task.keys.index(key) + 1
    made = task.made[run - 1]
    for place in range(len(made["chunks"])):
        yield f"read {key} {place}"
    yield f"unpin {key}"
    del held["pin"]
    return run, made["size"]


def build(task, run, size, held):
    for place in range(run, len(task.keys)):
        key, made = task.keys[place], task.made[place]
        task.ran += 1
        if isinstance(made, str):
            return f"{place} {made}"
        size = made["size"]
        if key in task.marked:
            reserved = yield f"reserve {key} {size} {len(made['chunks'])}"
            if reserved == "room":
                held["ticket"] = key
                for pairs, weight in made["chunks"]:
                    yield f"put {key} {pairs} {weight}"
                yield f"commit {key}"
                del held["ticket"]
    return f"tree {size}"


# ---- scripts


def play(tasks, script):
    """What a job wants at first, and after each line."""
    jobs, wanted = job(tasks), []
    action = next(jobs)
    wanted.append(action)
    for line in script:
        if line == "new":
            jobs = job(tasks)
            action = next(jobs)
        else:
            action = step(jobs, line)
        wanted.append(action)
    return wanted


def step(jobs, line):
    try:
        if line == "refuse":
            return jobs.throw(Refused)
        if line.endswith(" refused"):
            jobs.send(line.removesuffix(" refused"))
            return jobs.throw(Refused)
        return jobs.send(line)
    except (StopIteration, Refused):
        return "none"


def script_for(tasks, claims, looks=(), reserves=(), fetches=()):
    """The replies to a job that claims these tasks and is then over: what each look, reserve and fetch is answered in
    turn, and else `miss`, `room` and `fetched`."""
    claims, looks, reserves, fetches = list(claims), list(looks), list(reserves), list(fetches)
    jobs, script = job(tasks), []
    action = next(jobs)
    while True:
        word = action.split()[0]
        if word == "claim":
            reply = f"task {claims.pop(0)}" if claims else "over"
        elif word == "look":
            reply = looks.pop(0) if looks else "miss"
        elif word == "reserve":
            reply = reserves.pop(0) if reserves else "room"
        elif word == "fetch":
            reply = fetches.pop(0) if fetches else "fetched"
        else:
            reply = "chunk" if word == "read" else "ok"
        script.append(reply)
        action = step(jobs, reply)
        if action == "none":
            return script


MAY_BE_REFUSED = {"claim", "fetch", "look", "read", "reserve"}


def refusals(tasks, script):
    """The script with memory refused at each of its lines: to the action, where that may be, and to the work behind the
    reply. What is due then ends with the task's end, and a claim that finds all over."""
    wanted = play(tasks, script)
    for place in range(len(script)):
        if wanted[place].split()[0] in MAY_BE_REFUSED:
            yield finished(tasks, script[:place] + ["refuse"])
        yield finished(tasks, script[:place] + [script[place] + " refused"])


def finished(tasks, script):
    while play(tasks, script)[-1] != "none":
        action = play(tasks, script)[-1]
        script = script + ["over" if action == "claim" else "ok"]
    return script


# ---- case files


def block(lines):
    return "".join(f"    {line}\n" for line in lines)


def case(name, tasks, script):
    return f"case {name}\nscript\n{block(script)}due actions\n{block(play(tasks, script))}"


def manifest(name, text):
    return f"file {name}\n{block(text.strip().splitlines())}"


THREE = """
{"version":"2","pipelines":[
 {"name":"one","stages":[
  {"type":"org.osbuild.mkdir","options":{"paths":[{"path":"/a"}]}}]},
 {"name":"two","stages":[
  {"type":"org.osbuild.mkdir","options":{"paths":[{"path":"/a"}]}},
  {"type":"org.osbuild.mkdir","options":{"paths":[{"path":"/b"}]}}]},
 {"name":"three","stages":[
  {"type":"org.osbuild.mkdir","options":{"paths":[{"path":"/a"}]}},
  {"type":"org.osbuild.mkdir","options":{"paths":[{"path":"/b"}]}},
  {"type":"org.osbuild.mkdir","options":{"paths":[{"path":"/c"}]}}]},
 {"name":"four","stages":[
  {"type":"org.osbuild.mkdir","options":{"paths":[{"path":"/a"}]}},
  {"type":"org.osbuild.mkdir","options":{"paths":[{"path":"/b"}]}},
  {"type":"org.osbuild.mkdir","options":{"paths":[{"path":"/c"}]}},
  {"type":"org.osbuild.mkdir","options":{"paths":[{"path":"/d"}]}}]}]}
"""
# The root is 65, and a directory of one letter 64 and the two bytes of its path.
LETTERS = [small(65 + 66 * count, count + 1) for count in range(1, 5)]
THREE_TASKS = [Task(list(range(count)), reversed(range(count)), made=LETTERS) for count in range(1, 5)]

FAULTS = """
{"version":"2","pipelines":[
 {"name":"first","stages":[
  {"type":"org.osbuild.error","options":{"returncode":7}},
  {"type":"org.osbuild.noop"},
  {"type":"org.osbuild.mkdir","options":{"paths":[{"path":"/a"}]}}]},
 {"name":"middle","stages":[
  {"type":"org.osbuild.mkdir","options":{"paths":[{"path":"/a"}]}},
  {"type":"org.osbuild.mkdir","options":{"paths":[{"path":"/b"},{"path":"/a"}]}},
  {"type":"org.osbuild.mkdir","options":{"paths":[{"path":"/c"}]}}]},
 {"name":"last","stages":[
  {"type":"org.osbuild.mkdir","options":{"paths":[{"path":"/a"}]}},
  {"type":"org.osbuild.noop"},
  {"type":"org.osbuild.mkdir","options":{"paths":[{"path":"/x/y"}]}}]},
 {"name":"front","stages":[
  {"type":"org.osbuild.mkdir","options":{"paths":[{"path":"/a"}]}}]},
 {"name":"tools","build":"name:front","stages":[
  {"type":"org.osbuild.mkdir","options":{"paths":[{"path":"/a"}]}},
  {"type":"org.osbuild.chmod","options":{"items":{"/a":{"mode":"0700"}}}}]}]}
"""
A = small(131, 2)
FAULT_TASKS = [
    Task([0, 1, 2], [2], made=["fault 11 Asked 7", None, None]),
    Task([3, 4, 5], [5, 3], made=[A, 'fault 2 Exists /a', None]),
    Task([3, 6, 7], [7, 3], made=[A, A, 'fault 1 Missing /x']),
    Task([3], [3], made=[A]),
    Task([8, 9], [9], [3], made=[A, 'fault 10 ToolMissing /usr/bin/chmod']),
]

DEPS = """
{"version":"2","pipelines":[
 {"name":"a","stages":[{"type":"org.osbuild.mkdir","options":{"paths":[{"path":"/a"}]}}]},
 {"name":"b","stages":[{"type":"org.osbuild.mkdir","options":{"paths":[{"path":"/b"}]}}]},
 {"name":"ab","stages":[
  {"type":"org.osbuild.copy",
   "inputs":{
    "a":{"type":"org.osbuild.tree","origin":"org.osbuild.pipeline","references":["name:a"]},
    "b":{"type":"org.osbuild.tree","origin":"org.osbuild.pipeline","references":["name:b"]}},
   "options":{"paths":[{"from":"input://a/a","to":"tree:///a"},{"from":"input://b/b","to":"tree:///b"}]}},
  {"type":"org.osbuild.mkdir","options":{"paths":[{"path":"/c"}]}}]}]}
"""
DEP_TASKS = [
    Task([0], [0], made=[A]),
    Task([1], [1], made=[A]),
    Task([2, 3], [3], [0, 1], made=[small(197, 3), small(263, 4)]),
]

# Directories, 156 of three digits, 90 of two and 10 of one: 64 and the bytes of the path, which has a slash and a `d`.
WIDE_SIZE = 65 + 156 * (64 + 5) + 90 * (64 + 4) + 10 * (64 + 3)


def wide():
    """By path: the root, /d0, /d1, /d10, /d100 and on. The second chunk has the last path, /d99."""
    last = 64 + len("/d99")
    return tree(WIDE_SIZE, (256, WIDE_SIZE - last), (1, last))


def wide_file():
    return """file m.json parts
    text {"version":"2","pipelines":[{"name":"wide","stages":[{"type":"org.osbuild.mkdir","options":{"paths":[
    count 255 {"path":"/d#"},
    text {"path":"/d255"}]}}]}]}
"""


WIDE_TASKS = [Task([0], [0], made=[wide()])]


class Group:
    """Cases over the builds of one manifest. A script has lines before those of the case itself, if it needs what an
    earlier task has left."""

    def __init__(self, comment, file, exports, tasks):
        self.head = f"# {comment}\n\ncall job\nwords *\nbuild m.json {exports}\n{file}"
        self.tasks = tasks
        self.scripts = []

    def add(self, name, script, before=()):
        self.scripts.append((name, list(before), list(script)))

    def task(self, name, claims, before=(), **answers):
        """A case of a job that claims these tasks, the last of which it is about."""
        self.add(name, script_for(self.tasks, claims, **answers), before)

    def text(self):
        cases = [case(name, self.tasks, before + script) for name, before, script in self.scripts]
        return "\n".join([self.head, *cases])

    def refused_text(self):
        cases = []
        for name, before, script in self.scripts:
            lines = before + ["new"] if before else []
            for refused in refusals(self.tasks, script):
                lines += refused + ["new"]
            cases.append(case(name, self.tasks, lines[:-1]))
        return "\n".join([self.head, *cases])


def ended(tasks, claims):
    """The script of a job that has claimed these tasks and is not over."""
    return script_for(tasks, claims)[:-1]


def letters():
    tasks = THREE_TASKS
    comment = "Four tasks, each over the stages of the one before: every stage is marked."
    group = Group(comment, manifest("m.json", THREE), "one,two,three,four", tasks)
    group.add("no task is left", ["over"])
    group.add("a claim that finds no task is made again", ["idle", "task 0", "miss", "too large", "ok", "over"])
    group.task("a task without dependencies", [0])
    group.task("the trees of all stages are kept", [2])
    group.task("the first entry is already there", [2], reserves=["already"])
    group.task("the middle entry is already there", [2], reserves=["room", "already"])
    group.task("the last entry is already there", [2], reserves=["room", "room", "already"])
    group.task("no entry fits", [2], reserves=["too large"] * 3)
    group.task("the cache is full", [2], reserves=["full"] * 3)
    group.task("each is answered something else", [2], reserves=["full", "already", "too large"])
    for place, name in [(2, "first"), (1, "middle"), (0, "last")]:
        group.task(f"a hit at the {name} marked stage", [2], before=ended(tasks, [2]), looks=[f"hit {place}"])
    group.task("a hit of the shorter task's entry", [3], before=ended(tasks, [1]), looks=["hit 2"])
    return group


def faults():
    tasks = FAULT_TASKS
    comment = "Stages with faults, and a missing tool: last stages are marked, and that of `front` is the first of others."
    group = Group(comment, manifest("m.json", FAULTS), "first,middle,last,front,tools", tasks)
    for number, name in enumerate(["first", "middle", "last"]):
        group.task(f"the {name} stage has a fault", [number])
    group.task("the middle stage has a fault behind a hit", [1], before=ended(tasks, [3]), looks=["hit 1"])
    group.task("a tool is missing in the build tree", [4], before=ended(tasks, [3]))
    group.task("what a task is built with is blocked", [4], fetches=["blocked"])
    return group


def dependencies():
    tasks = DEP_TASKS
    group = Group("A task with two dependencies.", manifest("m.json", DEPS), "a,b,ab", tasks)
    both = ended(tasks, [0, 1])
    group.task("both dependencies have trees", [2], before=both)
    for name, fetches in [
        ("the first is blocked", ["blocked", "fetched"]),
        ("the second is blocked", ["fetched", "blocked"]),
        ("the first has no memory", ["no memory", "fetched"]),
        ("the second has no memory", ["fetched", "no memory"]),
        ("the first is blocked and the second has no memory", ["blocked", "no memory"]),
        ("the first has no memory and the second is blocked", ["no memory", "blocked"]),
    ]:
        group.task(name, [2], before=both, fetches=fetches)
    return group


def chunks():
    tasks = WIDE_TASKS
    group = Group("A tree of 257 paths, which is two chunks.", wide_file(), "wide", tasks)
    group.task("two chunks are put", [0])
    group.task("two chunks are read", [0], before=ended(tasks, [0]), looks=["hit 0"])
    return group


HEAD = """# A worker's job: what it wants after each reply{}. Printed by vectors/jobs.py, a plain
# reading of the rules.
"""


def main():
    groups = [letters(), faults(), dependencies(), chunks()]
    if sys.argv[1:] == ["refusals"]:
        texts = [HEAD.format(", once for each step at which memory is refused")]
        texts += [group.refused_text() for group in groups]
    else:
        texts = [HEAD.format(""), *(group.text() for group in groups)]
    print("\n".join(texts), end="")


if __name__ == "__main__":
    main()
