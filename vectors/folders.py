"""Compares what lists of manifests are exported to: over a store and without one, within limits, and each one alone.

Usage: python3 vectors/folders.py PROGRAM [COUNT] [SEED]
       python3 vectors/folders.py time PROGRAM

PROGRAM is osb_main. COUNT lists of one to six generated manifests, which share stages and pipelines, are built over and
over; each run must export the same folders, byte by byte, and answer the same as the first one. With `time` a run of 64
manifests that share a pipeline of many stages is timed, and the same run again over the store that it left.
"""

import base64
import hashlib
import json
import os
import random
import subprocess
import sys
import tempfile
import time
from pathlib import Path

ITEMS = [b"hello\n", b"", b"#!/bin/sh\nexit 0\n", bytes(range(256))]
TOOLS = ["/usr/bin/cp", "/usr/bin/chmod", "/usr/bin/chown", "/usr/sbin/groupadd", "/usr/sbin/useradd"]
MOST_SECONDS = 600


def digest(data):
    return f"sha256:{hashlib.sha256(data).hexdigest()}"


# ---- manifests


def stage(kind, inputs=None, **options):
    made = {"type": f"org.osbuild.{kind}", "options": options}
    return {**made, "inputs": inputs} if inputs else made


def files_input(*items):
    return {"type": "org.osbuild.files", "origin": "org.osbuild.source", "references": [digest(item) for item in items]}


def tree_input(name):
    return {"type": "org.osbuild.tree", "origin": "org.osbuild.pipeline", "references": [f"name:{name}"]}


def mkdir(*paths, **more):
    return stage("mkdir", paths=[{"path": path, **more} for path in paths])


def copied(item, to):
    paths = [{"from": f"input://in/{digest(item)}", "to": f"tree://{to}"}]
    return stage("copy", {"in": files_input(item)}, paths=paths)


def first_stages():
    return [mkdir("/etc", "/usr"), mkdir("/etc", "/home", "/srv"), mkdir("/usr/share", "/etc", parents=True)]


def later_stages():
    """Stages of which some fail where others have not come before."""
    return [
        mkdir("/etc/x"),
        mkdir("/var/lib", mode=0o700, parents=True, exist_ok=True),
        mkdir(*[f"/d{number}" for number in range(300)], exist_ok=True),
        copied(ITEMS[0], "/etc/hello"),
        copied(ITEMS[3], "/usr/all"),
        copied(ITEMS[1], "/etc/nothing"),
        stage("symlink", paths=[{"target": "etc", "link": "/to"}]),
        stage("symlink", paths=[{"target": "../é", "link": "/etc/link"}]),
        stage("hostname", hostname="one"),
        stage("hostname", hostname="two"),
        stage("locale", language="en_US.UTF-8"),
        stage("timezone", zone="Europe/Berlin"),
        stage("keymap", keymap="de"),
        stage("machine-id", **{"first-boot": "yes"}),
        stage("groups", groups={"wheel": {"gid": 10}, "games": {}}),
        stage("users", users={"amy": {"groups": []}, "bob": {"uid": 1001, "key": "ssh-ed25519 k"}}),
        stage("users", users={"cid": {"groups": ["wheel"]}}),
        stage("chmod", items={"/etc": {"mode": "0700", "recursive": True}}),
        stage("chmod", items={"/etc/hello": {"mode": "755"}}),
        stage("chown", items={"/": {"user": 5, "group": 7, "recursive": True}}),
        stage("noop", comment="é"),
    ]


def tools(rng):
    """A pipeline that has the tools, or all of them but one."""
    have = [tool for tool in TOOLS if rng.random() < 0.95]
    paths = [{"from": f"input://in/{digest(ITEMS[2])}", "to": f"tree://{tool}"} for tool in have]
    runnable = {tool: {"mode": "0755"} for tool in have}
    folders = mkdir("/usr/bin", "/usr/sbin", parents=True)
    return {"name": "tools", "stages": [folders, stage("copy", {"in": files_input(ITEMS[2])}, paths=paths), stage("chmod", items=runnable)]}


def some_stages(rng, count):
    made = [rng.choice(first_stages())] + rng.sample(later_stages(), count)
    if rng.random() < 0.1:
        made.insert(rng.randrange(len(made) + 1), stage("error", returncode=rng.randrange(3)))
    return made


class Pool:
    """The pipelines that the manifests of a list take."""

    def __init__(self, rng):
        self.rng = rng
        self.tools = [tools(rng) for _ in range(2)]
        self.bases = [some_stages(rng, rng.randrange(4)) for _ in range(2)]
        self.tops = [some_stages(rng, rng.randrange(1, 6)) for _ in range(3)]

    def manifest(self):
        rng = self.rng
        pipelines = [rng.choice(self.tools)] if rng.random() < 0.7 else []
        build = {"build": "name:tools"} if pipelines and rng.random() < 0.8 else {}
        if rng.random() < 0.6:
            pipelines.append({"name": "base", **(build if rng.random() < 0.5 else {}), "stages": rng.choice(self.bases)})
        stages = list(rng.choice(self.tops))
        stages = stages[: rng.randrange(1, len(stages) + 1)] + rng.sample(later_stages(), rng.randrange(3))
        if pipelines and pipelines[-1]["name"] == "base" and rng.random() < 0.6:
            whole = stage("copy", {"b": tree_input("base")}, paths=[{"from": "input://b/", "to": "tree:///"}])
            stages.insert(rng.randrange(len(stages) + 1), whole)
        pipelines.append({"name": "os", **build, "stages": stages})
        return self.spelt({"version": "2", "sources": self.sources(), "pipelines": pipelines})

    def sources(self):
        """Most items are in the manifest, others in the folder of a mirror, and few nowhere."""
        inline, curl = {}, {}
        for item in ITEMS:
            where = self.rng.random()
            if where < 0.7:
                inline[digest(item)] = {"encoding": "base64", "data": base64.b64encode(item).decode()}
            elif where < 0.97:
                curl[digest(item)] = {"url": "http://localhost/x"}
        return {"org.osbuild.inline": {"items": inline}, "org.osbuild.curl": {"items": curl}}

    def spelt(self, manifest):
        text = json.dumps(manifest, ensure_ascii=self.rng.random() < 0.5)
        return text[:-1] if self.rng.random() < 0.03 else text


# ---- runs


class Runs:
    def __init__(self, program, folder):
        self.program, self.folder, self.count = os.path.abspath(program), Path(folder), 0

    def run(self, output, words, manifests):
        """The status, the lines of each build without its place, and the files of each build's exports."""
        self.count += 1
        words = [self.program, "build", "--output", output, *words, *manifests]
        ran = subprocess.run(words, cwd=self.folder, capture_output=True, timeout=MOST_SECONDS)
        if ran.stderr:
            sys.exit(f"{words} in {self.folder}: {ran.stderr.decode()}")
        lines = [line.split(" ", 1) for line in ran.stdout.decode().splitlines()]
        builds = []
        for place in range(1, len(manifests) + 1):
            answers = [words for number, words in lines if number == str(place)]
            builds.append((answers, files_below(self.folder / output / str(place))))
        return ran.returncode, builds


def files_below(folder):
    """What is below a folder: the content of each file, and None for each directory."""
    found = {}
    for place in sorted(folder.rglob("*")):
        found[str(place.relative_to(folder))] = None if place.is_dir() else place.read_bytes()
    return found


def store_sizes(rng, builds):
    """A limit of some of the bytes that the trees have."""
    sizes = [int(words.split()[-1]) for answers, _ in builds for words in answers if " exported " in words]
    return rng.randrange(65, sum(sizes) + 66)


def differing(rng, runs, manifests):
    """How many of the runs of a list differ from the first one."""
    names = [f"m{number}.json" for number in range(len(manifests))]
    for name, text in zip(names, manifests):
        (runs.folder / name).write_text(text)
    (runs.folder / "mirror").mkdir()
    for item in ITEMS:
        (runs.folder / "mirror" / digest(item)).write_bytes(item)
    exports = ["--export", rng.choice(["os", "os", "os,base", "tools,os"]), "--mirror", "absent:mirror"]
    marked = [*exports, "--checkpoint", rng.choice(["*", "*", "os", "tools,base"])]
    first = runs.run("cold", [*marked, "--store", "store"], names)
    middle = str(store_sizes(rng, first[1]))
    others = [
        runs.run("warm", [*marked, "--store", "store"], names),
        runs.run("none", [*marked, "--store", "empty", "--limit", "0"], names),
        runs.run("middle", [*marked, "--store", "part", "--limit", middle], names),
        runs.run("again", [*marked, "--store", "part", "--limit", middle], names),
        runs.run("shrunk", [*marked, "--store", "store", "--limit", middle], names),
        runs.run("free", [*marked, "--limit", "unlimited"], names),
        runs.run("bare", exports, names),
    ]
    alone = [runs.run(f"alone-{name}", exports, [name]) for name in names]
    statuses = [status for status, _ in alone]
    count = sum(other != first for other in others) + (first[0] != max(statuses))
    return count + sum(build != one[1][0] for build, one in zip(first[1], alone))


def compare(program, count, seed):
    rng = random.Random(seed)
    made, differ = 0, 0
    for _ in range(count):
        with tempfile.TemporaryDirectory(prefix="folders-") as folder:
            runs = Runs(program, folder)
            pool = Pool(rng)
            differ += differing(rng, runs, [pool.manifest() for _ in range(rng.randrange(1, 7))])
            made += runs.count
    print(f"{count} lists, {made} runs, {differ} differ")
    return 1 if differ else 0


# ---- times


def heavy(number):
    many = [mkdir(f"/p{part}", *[f"/p{part}/d{place}" for place in range(250)]) for part in range(8)]
    base = {"name": "base", "stages": [*many, stage("chown", items={"/": {"user": 5, "group": 7, "recursive": True}})]}
    top = {"name": "os", "build": "name:base", "stages": [mkdir("/etc"), stage("hostname", hostname=f"h{number}")]}
    return json.dumps({"version": "2", "pipelines": [base, top]})


def timed(program):
    with tempfile.TemporaryDirectory(prefix="folders-") as folder:
        names = [f"m{number}.json" for number in range(64)]
        for number, name in enumerate(names):
            (Path(folder) / name).write_text(heavy(number))
        runs, seconds = Runs(program, folder), []
        for output in ["cold", "warm"]:
            begun = time.monotonic()
            status, _ = runs.run(output, ["--export", "os", "--checkpoint", "*", "--store", "store"], names)
            seconds.append(time.monotonic() - begun)
            if status:
                sys.exit(f"status {status}")
    print(f"{len(names)} manifests: {seconds[0]:.2f} seconds cold, {seconds[1]:.2f} seconds warm")
    return 0


def main(arguments):
    if arguments[:1] == ["time"]:
        return timed(arguments[1])
    count, seed = [*map(int, arguments[1:]), *[100, 1][len(arguments) - 1 :]]
    return compare(arguments[0], count, seed)


if __name__ == "__main__":
    sys.exit(main(sys.argv[1:]))
