"""Crews over plans: what the program of crews prints, and its logs replayed.

Usage: python3 vectors/crews.py > crates/osb_crews/stdout
       python3 vectors/crews.py stress PROGRAM [COUNT] [SEED]

PROGRAM is osb_crews. With `stress` COUNT generated plans of 8 to 30 tasks are run by crews of 1 to 64 workers at limits
that force eviction and others, each twice, the second time over the entries that the first one left. Each log is replayed
turn by turn by the machine of schedules.py, and each outcome is compared with building without a cache.
"""

import hashlib
import json
import os
import random
import subprocess
import sys
import tempfile
from pathlib import Path

import run_rules
import schedules
from jobs import Task
from run_rules import EMPTY, Fault, Plan, chunk_weights, list_lines, listing

DATA = Path(__file__).parent.parent / "crates" / "osb_crews" / "data"
WORKERS = [1, 2, 3, 4, 6, 8, 16, 32, 64]
SECONDS = 120


# ---- plans


def shown(tree):
    """The line of a task that ends with this tree."""
    hasher = hashlib.sha256()
    for _, node in listing(tree):
        if node.kind == "file":
            hasher.update(node.data)
    hasher.update("".join(f"{line}\n" for line in list_lines(tree)).encode())
    return f"tree {sum(chunk_weights(tree))} {hasher.hexdigest()}"


def made_of(tree):
    weights = chunk_weights(tree)
    return {"size": sum(weights), "chunks": [(0, weight) for weight in weights]}


class Planned:
    """The tasks of a manifest whose pipelines are all exported, with what their stages make without a cache."""

    def __init__(self, manifest, checkpoints):
        plan = Plan([], [])
        plan.add_build(manifest, range(len(manifest["pipelines"])), checkpoints, [])
        self.tasks, self.lines, self.sizes, trees = [], [], {}, {}
        for task in plan.tasks():
            made, line, tree = self.built(plan, task, trees)
            self.tasks.append(Task(list(task.chain), task.marked, task.deps, made))
            self.lines.append(line)
            trees[task.chain[-1]] = tree

    def built(self, plan, task, trees):
        made, tree = [], EMPTY
        if any(trees[self.tasks[dep].keys[-1]] is None for dep in task.deps):
            return made, "blocked", None
        for place, key in enumerate(task.chain):
            recipe = plan.recipes[key]
            build = trees[recipe.build[1]] if len(recipe.build) > 1 else None
            try:
                tree = run_rules.run_stage(recipe, tree, build, {})
            except Fault as fault:
                made.append(str(fault))
                return made, f"fault {place}", None
            made.append(made_of(tree))
            if key in task.marked:
                self.sizes[key] = made[-1]["size"]
        return made, shown(tree), tree


# ---- the words of runs


def words(gate, manifest, name, checkpoints, workers, limit=None, log=False):
    given = [gate, "build", "--output", "out", "--workers", str(workers)]
    given += ["--export", ",".join(pipeline["name"] for pipeline in manifest["pipelines"])]
    given += ["--checkpoint", ",".join(checkpoints)] if checkpoints else []
    if limit is not None:
        given += ["--limit", str(limit)]
    return given + (["--log"] if log else []) + [name]


def print_due():
    """What is due of the words in the program's file of words."""
    for name, checkpoints in [("pair.json", []), ("middle.json", [])]:
        planned = Planned(json.loads((DATA / name).read_text()), checkpoints)
        for _ in range(2):
            print("\n".join(planned.lines))
            print(f"passes {len(planned.lines)}, alone 0")


# ---- generated plans


def mkdir(*paths):
    return {"type": "org.osbuild.mkdir", "options": {"paths": [{"path": path} for path in paths]}}


def some_stages(rng, name):
    stages = []
    for place in range(rng.randint(1, 4)):
        kind = rng.random()
        if kind < 0.05:
            stages.append(mkdir(*[f"/{name}{place}-{number}" for number in range(300)]))
        elif kind < 0.1:
            stages.append({"type": "org.osbuild.error", "options": {"returncode": rng.randint(1, 9)}})
        else:
            stages.append(mkdir(f"/{name}{place}" + "x" * rng.randint(0, 40)))
    return stages


def some_manifest(rng):
    pipelines = []
    for number in range(rng.randint(8, 30)):
        stages, pipeline = some_stages(rng, f"p{number}-"), {"name": f"p{number}"}
        if pipelines and rng.random() < 0.4:
            # It begins as another one, built as that one is.
            other = rng.choice(pipelines)
            stages = other["stages"][: rng.randint(1, len(other["stages"]))] + stages
            pipeline |= {"build": other["build"]} if "build" in other else {}
        elif pipelines and rng.random() < 0.5:
            pipeline["build"] = "name:" + rng.choice(pipelines)["name"]
        pipelines.append({**pipeline, "stages": stages})
    return {"version": "2", "pipelines": pipelines}


# ---- runs


class Reader:
    def __init__(self, text):
        self.lines = text.splitlines()

    def next(self):
        return self.lines.pop(0)

    def log(self):
        lines = [self.next()]
        assert lines[0].startswith("open "), lines
        while self.lines and self.lines[0][0].isdigit():
            lines.append(self.next())
        return lines


def replayed(planned, limit, opening, workers, log):
    """The machine after the log, each line of which must be that of its worker's turn."""
    machine = schedules.Machine(planned.tasks, limit, opening, workers)
    assert machine.cache.opened == log[0], (machine.cache.opened, log[0])
    for line in log[1:]:
        assert machine.turn(int(line.split()[1]), ""), line
        assert machine.log[-1] == line, (machine.log[-1], line)
        machine.check()
    assert all(job == "none" or machine.claim() == "over" for job in machine.wants)
    return machine


def check_run(planned, reader, limit, opening, workers, counts):
    came = [reader.next() for _ in planned.lines]
    for due, line in zip(planned.lines, came):
        assert line == due or (due.startswith("fault") and line.startswith(due)), (due, line)
    assert reader.next() == f"passes {len(planned.lines)}, alone 0"
    log = reader.log()
    machine = replayed(planned, limit, opening, workers, log)
    counts["runs"] += 1
    counts["hits"] += sum(" look hit " in line for line in log)
    counts["evicted"] += sum(int(line.split()[-1]) for line in log if " room " in line)
    counts["already"] += sum(line.endswith(" already") for line in log)
    counts["workers"] += len({line.split()[1] for line in log[1:] if " claim " in line})
    return machine.entries()


def limits(rng, planned):
    total = sum(planned.sizes.values())
    return rng.choice([0, max(planned.sizes.values(), default=0), total // 4, total // 2, total - 1 if total else 0, total, schedules.UNLIMITED])


def stress(program, count, seed):
    counts = dict.fromkeys(["runs", "hits", "evicted", "already", "workers"], 0)
    for number in range(count):
        rng = random.Random(f"{seed} {number}")
        manifest = some_manifest(rng)
        checkpoints = rng.choice([["*"], ["*"], [pipeline["name"] for pipeline in manifest["pipelines"][::2]]])
        planned = Planned(manifest, checkpoints)
        asked = [(rng.choice(WORKERS), limits(rng, planned)) for _ in range(6)]
        given = []
        for workers, limit in asked:
            given += (["--"] if given else []) + words("open", manifest, "m.json", checkpoints, workers, limit, log=True)
        with tempfile.TemporaryDirectory() as folder:
            (Path(folder) / "m.json").write_text(json.dumps(manifest))
            ran = subprocess.run([program, *given], cwd=folder, capture_output=True, text=True, timeout=SECONDS)
        assert ran.returncode == 0, ran.stderr
        reader = Reader(ran.stdout)
        for workers, limit in asked:
            entries = check_run(planned, reader, limit, [], workers, counts)
            check_run(planned, reader, limit, entries, workers, counts)
        assert not reader.lines
    print(f"{count} plans, {counts['runs']} runs, 0 differ; {counts['hits']} hits, {counts['evicted']} evicted, "
          f"{counts['already']} already there, {counts['workers'] / counts['runs']:.1f} workers with a task a run")


def main():
    if sys.argv[1:2] == ["stress"]:
        program, *rest = sys.argv[2:]
        count, seed = [*map(int, rest), *[200, 1][len(rest):]]
        stress(os.path.abspath(program), count, seed)
    else:
        print_due()


if __name__ == "__main__":
    main()
