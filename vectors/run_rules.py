"""What a run of one worker comes to: stages, plans, the cache, the store and the answers, by a plain reading of the rules.

Manifests are Python values, which keep the order of their members. A tree is a dictionary from the text of a path to a
Node, a store a triple of blobs, recipes and entries. Stages that the cases do not have are not known here.
"""

import base64
import hashlib
import json
import re
from collections import namedtuple

import account_rules
import stores
from account_rules import Node
from schedules import UNLIMITED, Cache

CHUNK = 256
TOOLS = {"copy": "/usr/bin/cp", "chmod": "/usr/bin/chmod", "groups": "/usr/sbin/groupadd", "users": "/usr/sbin/useradd"}
Recipe = namedtuple("Recipe", "kind options build base inputs")
Task = namedtuple("Task", "chain marked deps")


class Fault(Exception):
    """A stage's fault, as its line has it."""


class Unbuilt(Exception):
    """Why a build has no trees, as its line has it."""


class Ended(Exception):
    """A run that ends before its exports, by its line and status."""


class Calls:
    """The calls of an object of the outside, of which some fail."""

    def __init__(self, failing=()):
        self.failing, self.count = set(failing), 0

    def fails(self):
        self.count += 1
        return self.count in self.failing


# ---- trees


def names_of(path):
    return [name.encode() for name in path.split("/") if name]


def listing(tree):
    return sorted(tree.items(), key=lambda pair: names_of(pair[0]))


def weight(pairs):
    return sum(64 + len(path.encode()) + len(node.data or b"") for path, node in pairs)


def chunk_weights(tree):
    pairs = listing(tree)
    return [weight(pairs[start : start + CHUNK]) for start in range(0, len(pairs), CHUNK)]


def list_lines(tree):
    lines = []
    for path, node in listing(tree):
        line = f"{node.kind[0]} {node.mode:04o} {node.uid} {node.gid} {json.dumps(path)}"
        lines.append(line + (f" {len(node.data)}" if node.kind == "file" else ""))
    return lines


def operations(folder, tree):
    """The lines of an export, the last of which is its end."""
    lines = []
    for path, node in listing(tree):
        place = folder + "/tree" + ("" if path == "/" else path)
        length = f" {len(node.data)}" if node.kind == "file" else ""
        lines.append(f"{node.kind} {place} {node.mode:04o} {node.uid} {node.gid}{length}")
    return lines + [f"finish {folder}"]


EMPTY = {"/": Node("dir", 0o755, 0, 0, b"")}


# ---- stages


def need_parent(tree, path):
    """The first ancestor that is absent or no directory is at fault."""
    names = path.split("/")[1:-1]
    for count in range(len(names) + 1):
        above = "/" + "/".join(names[:count])
        if above not in tree:
            raise Fault(f"1 {json.dumps(above)}")
        if tree[above].kind != "dir":
            raise Fault(f"3 {json.dumps(above)}")


def mkdir(tree, options, _):
    for item in options["paths"]:
        path = item["path"]
        if path in tree:
            raise Fault(f"2 {json.dumps(path)}")
        if item.get("parents"):
            names = path.split("/")[1:-1]
            for count in range(1, len(names) + 1):
                tree.setdefault("/" + "/".join(names[:count]), Node("dir", 0o755, 0, 0, b""))
        need_parent(tree, path)
        tree[path] = Node("dir", item.get("mode", 0o755), 0, 0, b"")


def copy(tree, options, inputs):
    """Of files to whole paths alone."""
    for item in options["paths"]:
        name, _, rest = item["from"].removeprefix("input://").partition("/")
        to = item["to"].removeprefix("tree://")
        need_parent(tree, to)
        tree[to] = inputs[name]["/" + rest]


def chmod(tree, options, _):
    for path, item in sorted(options["items"].items()):
        if path not in tree:
            raise Fault(f"1 {json.dumps(path)}")
        tree[path] = tree[path]._replace(mode=int(item["mode"], 8))


def write(tree, path, text):
    need_parent(tree, path)
    tree[path] = Node("file", 0o644, 0, 0, text.encode())


def error(_, options, __):
    if options["returncode"]:
        raise Fault(f"11 {options['returncode']}")


def accounts(stage, tree, options):
    answer, made = account_rules.run(stage, options, tree)
    assert answer == "ok"
    tree.update(made)


STAGES = {
    "noop": lambda tree, options, inputs: None,
    "error": error,
    "mkdir": mkdir,
    "copy": copy,
    "chmod": chmod,
    "hostname": lambda tree, options, inputs: write(tree, "/etc/hostname", options["hostname"] + "\n"),
    "locale": lambda tree, options, inputs: write(tree, "/etc/locale.conf", f"LANG={options['language']}\n"),
    "groups": lambda tree, options, inputs: accounts("groups", tree, options),
    "users": lambda tree, options, inputs: accounts("users", tree, options),
}


def run_stage(recipe, base, build, inputs):
    stage = recipe.kind.removeprefix("org.osbuild.")
    tool = TOOLS.get(stage)
    if build is not None and tool and not (tool in build and build[tool].kind == "file" and build[tool].mode & 0o111):
        raise Fault(f"10 {json.dumps(tool)}")
    tree = dict(base)
    STAGES[stage](tree, json.loads(recipe.options), inputs)
    return tree


def files_tree(blobs):
    files = {f"/sha256:{hashlib.sha256(blob).hexdigest()}": Node("file", 0o644, 0, 0, blob) for blob in blobs}
    return {**EMPTY, **files}


# ---- one manifest


def number_of(manifest, reference):
    return [pipeline["name"] for pipeline in manifest["pipelines"]].index(reference.removeprefix("name:"))


def tree_inputs(manifest, stage):
    given = stage.get("inputs", {}).values()
    return [number_of(manifest, one["references"][0]) for one in given if one["type"] == "org.osbuild.tree"]


def needed(manifest, exports):
    names = [pipeline["name"] for pipeline in manifest["pipelines"]]
    for name in exports:
        if name not in names:
            raise Unbuilt(f"no such export {json.dumps(name)}")
    places = set()
    todo = [names.index(name) for name in exports]
    while todo:
        place = todo.pop()
        if place not in places:
            places.add(place)
            pipeline = manifest["pipelines"][place]
            todo += [number_of(manifest, pipeline["build"])] if "build" in pipeline else []
            todo += [one for stage in pipeline.get("stages", []) for one in tree_inputs(manifest, stage)]
    return sorted(places)


def wanted(manifest, places):
    """The digests of files inputs, each at its first use."""
    digests = []
    for place in places:
        for stage in manifest["pipelines"][place].get("stages", []):
            for _, given in sorted(stage.get("inputs", {}).items()):
                if given["type"] == "org.osbuild.files":
                    digests += sorted(given["references"])
    return list(dict.fromkeys(digests))


def gather(manifest, digests, mirrors):
    sources = manifest.get("sources", {})
    inline = sources.get("org.osbuild.inline", {"items": {}})["items"]
    curl = sources.get("org.osbuild.curl", {"items": {}})["items"]
    return [item(digest, inline, curl, mirrors) for digest in digests]


def digest_of(data):
    return f"sha256:{hashlib.sha256(data).hexdigest()}"


def item(digest, inline, curl, mirrors):
    noted = set()
    if digest in inline:
        data = base64.b64decode(inline[digest]["data"], validate=True)
        if digest_of(data) == digest:
            return data
        noted.add("wrong")
    for mirror in list(mirrors) if digest in curl else []:
        if mirror.gone:
            mirrors.remove(mirror)
        elif mirror.calls.fails():
            noted.add("fault")
        elif digest in mirror.items:
            if digest_of(mirror.items[digest]) == digest:
                return mirror.items[digest]
            noted.add("wrong")
    word = next((word for word in ["fault", "wrong"] if word in noted), "missing")
    raise Unbuilt(f"source {word} {digest}")


# ---- plans


class Plan:
    """Stages as recipes of a table, in which each stands once, and pipelines as tasks."""

    def __init__(self, blobs, recipes):
        self.blobs, self.recipes = list(blobs), list(recipes)
        self.chains, self.numbers, self.kept = [], [], set()

    def add_build(self, manifest, places, checkpoints, gathered):
        for data in gathered:
            if data not in self.blobs:
                self.blobs.append(data)
        chains = {}
        for place in places:
            pipeline = manifest["pipelines"][place]
            chains[place] = chain = self.keys(manifest, pipeline, chains)
            if chain and ("*" in checkpoints or pipeline["name"] in checkpoints):
                self.kept.add(chain[-1])
            if chain not in self.chains:
                self.chains.append(chain)
        self.numbers.append({place: self.chains.index(chains[place]) for place in places})

    def keys(self, manifest, pipeline, chains):
        last = lambda place: chains[place][-1] if chains[place] else None
        build = ("of", last(number_of(manifest, pipeline["build"]))) if "build" in pipeline else ("none",)
        keys = []
        for stage in pipeline.get("stages", []):
            inputs = []
            for name, given in sorted(stage.get("inputs", {}).items()):
                if given["type"] == "org.osbuild.tree":
                    inputs.append((name, ("tree", last(number_of(manifest, given["references"][0])))))
                else:
                    inputs.append((name, ("files", tuple(self.blob_numbers(given["references"])))))
            options = json.dumps(stage.get("options", {}), sort_keys=True)
            recipe = Recipe(stage["type"], options, build, keys[-1] if keys else None, tuple(inputs))
            if recipe not in self.recipes:
                self.recipes.append(recipe)
            keys.append(self.recipes.index(recipe))
        return tuple(keys)

    def blob_numbers(self, digests):
        known = [digest_of(blob) for blob in self.blobs]
        return [known.index(digest) for digest in sorted(digests)]

    def needs(self, chain):
        """The keys whose trees a chain is built with."""
        keys = set()
        for key in chain:
            recipe = self.recipes[key]
            keys |= {recipe.build[1]} if len(recipe.build) > 1 else set()
            keys |= {content for _, (kind, content) in recipe.inputs if kind == "tree"}
        return keys - {None}

    def tasks(self):
        made = []
        for chain in self.chains:
            needs = self.needs(chain)
            deps = [number for number, other in enumerate(self.chains) if other and other[-1] in needs]
            made.append(Task(chain, [key for key in reversed(chain) if key in self.kept], deps))
        return made


# ---- the run of one worker


class Worker:
    def __init__(self, plan, entries, limit):
        """`entries`: pairs of a key and its tree, first the one that was used first."""
        self.plan, self.tasks, self.outcomes, self.log = plan, plan.tasks(), [], []
        self.trees = dict(entries)
        self.cache = Cache(limit, [(key, chunk_weights(tree)) for key, tree in entries])
        for number, task in enumerate(self.tasks):
            self.note(f"claim {number}")
            self.outcomes.append(self.outcome(task))
            self.note(f"done {number} {self.word(number)}")
        self.note("over")

    def note(self, words):
        self.log.append(f"{len(self.log) + 1} 0 {words}")

    def word(self, number):
        kind = self.outcomes[number][0]
        return {"tree": "tree", "fault": "fault", "blocked": "blocked"}[kind]

    def outcome(self, task):
        built = {}
        for dep in task.deps:
            self.note(f"fetch {dep} {self.word(dep)}")
            built[self.tasks[dep].chain[-1]] = self.outcomes[dep][1]
        if any(self.outcomes[dep][0] != "tree" for dep in task.deps):
            return ("blocked", None)
        run, tree = self.looked(task) if task.marked else (0, EMPTY)
        for place in range(run, len(task.chain)):
            try:
                tree = self.stage(task.chain[place], tree, {None: EMPTY, **built})
            except Fault as fault:
                return ("fault", (place, str(fault)))
            if task.chain[place] in task.marked:
                self.keep(task.chain[place], tree)
        return ("tree", tree)

    def looked(self, task):
        place = self.cache.look(0, task.marked)
        if place is None:
            self.note("look miss")
            return 0, EMPTY
        key = task.marked[place]
        self.note(f"look hit {key}")
        line = self.cache.find(key)
        for chunk in range(len(line["chunks"])):
            self.note(f"read {key} {chunk}")
        line["pins"].remove(0)
        self.note(f"unpin {key}")
        return task.chain.index(key) + 1, self.trees[key]

    def stage(self, key, tree, built):
        recipe = self.plan.recipes[key]
        inputs = {}
        for name, (kind, content) in recipe.inputs:
            inputs[name] = built[content] if kind == "tree" else files_tree([self.plan.blobs[one] for one in content])
        build = built[recipe.build[1]] if len(recipe.build) > 1 else None
        return run_stage(recipe, tree, build, inputs)

    def keep(self, key, tree):
        weights = chunk_weights(tree)
        reply = self.cache.reserve(0, key, sum(weights), len(weights))
        self.note(f"reserve {key} {reply}")
        if reply.startswith("room"):
            for one in weights:
                self.note(f"put {key} {self.cache.put(0, key, one)}")
            self.cache.commit(0, key)
            self.note(f"commit {key}")
            self.trees[key] = tree

    def entries(self):
        return [(line["key"], self.trees[line["key"]]) for line in self.cache.lines]


# ---- the store


WRITTEN = {}


def store_text(blobs, recipes, entries):
    data = stores.store(blobs, [recipe_text(one) for one in recipes], [stores.entry(key, nodes(tree)) for key, tree in entries])
    WRITTEN[data] = (blobs, recipes, entries)
    return data


def recipe_text(recipe):
    build = b"\x00" if recipe.build == ("none",) else stores.ref(recipe.build[1])
    inputs = []
    for name, (kind, content) in recipe.inputs:
        text = stores.tree_input(content) if kind == "tree" else stores.files_input(content)
        inputs.append((name.encode(), text))
    return stores.recipe(recipe.kind, recipe.options.encode(), recipe.base, build, inputs)


def nodes(tree):
    made = []
    for path, node in listing(tree):
        if node.kind == "dir":
            made.append(stores.directory(path.encode(), node.mode, node.uid, node.gid))
        else:
            made.append(stores.regular(path.encode(), node.data, node.mode, node.uid, node.gid))
    return made


def read_store(data):
    """Of stores that this file wrote, or that are refused."""
    if data is None:
        return [], [], []
    refusal = stores.outer_refusal(data)
    if refusal:
        raise Ended(f"store refused {refusal.split()[0]}", 4)
    return WRITTEN[data]


# ---- the whole run


Came = namedtuple("Came", "status out done lists kept entries mirrors")


class Run:
    """A run of a case, whose parts are those of runs.py."""

    def __init__(self, case, kept, fails):
        self.case, self.kept = case, kept
        failing = case.fail if fails else {}
        self.calls = {name: Calls(failing.get(name, ())) for name in ["shelf", "keeper", "exporter", "sink"]}
        self.mirrors = [Mirror(given, failing.get(name, ())) for name, given in case.mirrors.items()]
        self.done, self.lists = [], {}

    def came(self, asked):
        try:
            status, text = self.whole(asked)
        except Ended as ended:
            line, status = ended.args
            text = line + "\n"
        taken = self.written(text)
        status = status if taken == text.encode() else 6
        return Came(status, taken, self.done, self.lists, self.kept, self.kept_lines(), len(self.mirrors))

    def whole(self, asked):
        if asked.store and self.calls["keeper"].fails():
            raise Ended("store read fault", 3)
        blobs, recipes, entries = read_store(self.kept if asked.store else None)
        given = [None if self.calls["shelf"].fails() else name for name in asked.manifests]
        plan = Plan(blobs, recipes)
        builds = [self.prepared(name, asked, plan) for name in given]
        worker = Worker(plan, entries, asked.limit)
        lines, is_good = self.exported(builds, plan, worker, asked)
        saved = self.saved(asked, store_text(plan.blobs, plan.recipes, worker.entries()))
        log = [worker.cache.opened] + worker.log if asked.log else []
        text = "".join(line + "\n" for line in lines + log)
        return (0 if is_good else 1) if saved else 5, text

    def prepared(self, name, asked, plan):
        """The manifest with its number among the plan's builds, or why there is none."""
        try:
            if name is None:
                raise Unbuilt("read fault")
            if name not in self.case.files:
                raise Unbuilt("absent")
            manifest = self.case.files[name]
            if isinstance(manifest, Refused):
                raise Unbuilt(f"refused {manifest.words}")
            places = needed(manifest, asked.exports)
            gathered = gather(manifest, wanted(manifest, places), self.mirrors)
            plan.add_build(manifest, places, asked.checkpoints, gathered)
            return manifest, len(plan.numbers) - 1
        except Unbuilt as unbuilt:
            return str(unbuilt)

    def exported(self, builds, plan, worker, asked):
        lines, is_good = [], True
        for number, build in enumerate(builds, 1):
            words = build if isinstance(build, str) else self.failed(*build, plan, worker)
            if words:
                lines.append(f"{number} {words}")
                is_good = False
                continue
            manifest, own = build
            for name in asked.exports:
                tree = worker.outcomes[plan.numbers[own][number_of(manifest, name)]][1]
                is_done = self.export(f"{number}/{name}", tree)
                lines.append(f"{number} {name} " + (f"exported {weight(listing(tree))}" if is_done else "export fault"))
                is_good = is_good and is_done
        return lines, is_good

    def failed(self, manifest, own, plan, worker):
        for place, number in plan.numbers[own].items():
            kind, what = worker.outcomes[number]
            if kind == "fault":
                return f"failed {manifest['pipelines'][place]['name']} {what[0]} {what[1]}"
        return None

    def export(self, folder, tree):
        for line in operations(folder, tree):
            if self.calls["exporter"].fails():
                return False
            self.done.append(line)
        self.lists[folder] = list_lines(tree)
        return True

    def saved(self, asked, data):
        if not asked.store:
            return True
        if self.calls["keeper"].fails():
            return False
        self.kept = data
        return True

    def written(self, text):
        data, taken = text.encode(), b""
        while taken != data:
            if self.calls["sink"].fails():
                return taken
            space = min(self.case.most or len(data), self.case.room - len(taken))
            if space == 0:
                return taken
            taken = data[: len(taken) + space]
        return taken

    def kept_lines(self):
        if self.kept not in WRITTEN:
            return None
        return [f"{key} {weight(listing(tree))}" for key, tree in WRITTEN[self.kept][2]]


class Mirror:
    def __init__(self, items, failing):
        """`items`: by digest, or None where the mirror is gone."""
        self.gone, self.items, self.calls = items is None, items or {}, Calls(failing)


class Refused:
    """A file that is no manifest, and the words of its refusal."""

    def __init__(self, text, words):
        self.text, self.words = text, words


class Asked:
    def __init__(self, words):
        """The words of a run, which are not refused: an option with its value, or a manifest."""
        words = words.split()[1:]
        values = {}
        self.manifests = []
        while words:
            word = words.pop(0)
            if word == "--log":
                values["log"] = "log"
            elif word.startswith("--"):
                values[word[2:]] = words.pop(0)
            else:
                self.manifests.append(word)
        self.store, self.log = "store" in values, "log" in values
        self.limit = int(values["limit"]) if re.fullmatch("[0-9]+", values.get("limit", "")) else UNLIMITED
        self.exports = list(dict.fromkeys(values["export"].split(",")))
        self.checkpoints = values.get("checkpoint", "").split(",")
