"""Prints cases of whole runs over a store, with what is due by the plain reading of the rules in run_rules.py.

    python3 vectors/runs.py > crates/osb_cases/data/runs.cases
"""

import hashlib
import json

from account_rules import Node
from run_rules import EMPTY, WRITTEN, Asked, Recipe, Refused, Run, store_text

HELLO = hashlib.sha256(b"hello\n").hexdigest()
OTHER = hashlib.sha256(b"other\n").hexdigest()

TWO = """{"version":"2",
 "sources":{"org.osbuild.inline":{"items":{"sha256:H":{"encoding":"base64","data":"aGVsbG8K"}}}},
 "pipelines":[
  {"name":"build","runner":"org.osbuild.linux","stages":[
   {"type":"org.osbuild.mkdir","options":{"paths":[{"path":"/usr/sbin","parents":true}]}},
   {"type":"org.osbuild.copy",
    "inputs":{"tools":{"type":"org.osbuild.files","origin":"org.osbuild.source","references":["sha256:H"]}},
    "options":{"paths":[{"from":"input://tools/sha256:H","to":"tree:///usr/sbin/useradd"},
                        {"from":"input://tools/sha256:H","to":"tree:///usr/sbin/groupadd"}]}},
   {"type":"org.osbuild.chmod","options":{"items":{"/usr/sbin/groupadd":{"mode":"0755"},
                                                    "/usr/sbin/useradd":{"mode":"0755"}}}}]},
  {"name":"os","build":"name:build","stages":[
   {"type":"org.osbuild.mkdir","options":{"paths":[{"path":"/etc"}]}},
   {"type":"org.osbuild.groups","options":{"groups":{"wheel":{"gid":10}}}},
   {"type":"org.osbuild.users","options":{"users":{"admin":{"groups":["wheel"]}}}},
   {"type":"org.osbuild.hostname","options":{"hostname":"NAME"}},
   {"type":"org.osbuild.locale","options":{"language":"en_US.UTF-8"}}]}]}""".replace("H", HELLO)


class Case:
    def __init__(self, name, words, files=None, before=None, kept=None, mirrors=None, fail=None, room=65536, most=None, shown=()):
        """`files`: texts by name. `shown`: sections beyond the usual ones. What a group has for all its cases is added by it."""
        self.name, self.words, self.before, self.kept = name, words, before, kept
        self.texts, self.mirrors, self.fail = dict(files or {}), dict(mirrors or {}), dict(fail or {})
        self.room, self.most, self.shown = room, most, set(shown)

    def came(self):
        self.files = {name: read(text) for name, text in self.texts.items()}
        kept = self.kept
        if self.before:
            kept = Run(self, kept, False).came(Asked(self.before)).kept
            assert kept is not None
        return Run(self, kept, True).came(Asked(self.words))


REFUSED = {"{": '2 ""', '{"version":"1"}': '4 ""'}


def read(text):
    return Refused(text, REFUSED[text]) if text in REFUSED else json.loads(text)


# ---- case files


def block(lines):
    return "".join(f"    {line}\n" for line in lines)


def hex_block(data):
    digits = data.hex()
    return " parts\n" + block([f"hex {digits[start : start + 100]}" for start in range(0, len(digits), 100)] or ["text "])


def file_text(name, text):
    lines = text.splitlines()
    return f"file {name} {text}\n" if len(lines) == 1 else f"file {name}\n{block(lines)}"


def mirror_text(name, items):
    lines = ["gone"] if items is None else [f"item {digest} hex {data.hex()}" for digest, data in items.items()]
    return f"mirror {name}\n{block(lines)}"


def given_text(case):
    text = "".join(file_text(name, content) for name, content in case.texts.items())
    return text + "".join(mirror_text(name, items) for name, items in case.mirrors.items())


def own_text(case):
    text = f"before {case.before}\n" if case.before else ""
    text += f"kept{hex_block(case.kept)}" if case.kept is not None else ""
    text += "".join(f"fail {name} {' '.join(map(str, numbers))}\n" for name, numbers in case.fail.items())
    text += f"room {case.room}\n" if case.room != 65536 else ""
    return text + (f"most {case.most}\n" if case.most is not None else "")


def out_text(out):
    *lines, rest = out.split("\n")
    if rest and lines:
        return " parts\n" + block([f"line {line}" for line in lines] + [f"text {rest}"])
    return f" {rest}\n" if rest else "\n" + block(lines)


def due_text(case, came):
    text = f"due status {came.status}\ndue out{out_text(came.out.decode())}"
    text += f"due operations {len(came.done)}\n"
    text += f"due mirrors {came.mirrors}\n" if case.mirrors else ""
    if "done" in case.shown:
        text += "due done\n" + block(came.done)
    if "lists" in case.shown:
        text += "".join(f"due list {folder}\n{block(lines)}" for folder, lines in came.lists.items())
    if "kept" in case.shown:
        text += f"due kept{hex_block(came.kept)}" if came.kept is not None else "due kept none\n"
    return text + ("due entries none\n" if came.entries is None else "due entries\n" + block(came.entries))


def group(comment, cases, files=None, mirrors=None):
    """Cases with the same files and mirrors."""
    given = Case("", "", files, mirrors=mirrors)
    texts = [f"# {comment}\n\ncall run_serial\n{given_text(given)}"]
    for case in cases:
        own = given_text(case)
        case.texts = {**given.texts, **case.texts}
        case.mirrors = {**given.mirrors, **case.mirrors}
        texts.append(f"case {case.name}\nwords {case.words}\n{own}{own_text(case)}{due_text(case, case.came())}")
    return "\n".join(texts)


# ---- the cases


def manifest(*pipelines, items=None, curl=None):
    sources = {}
    if items:
        sources["org.osbuild.inline"] = {"items": {f"sha256:{digest}": {"encoding": "base64", "data": data} for digest, data in items.items()}}
    if curl:
        sources["org.osbuild.curl"] = {"items": {f"sha256:{digest}": "http://x" for digest in curl}}
    value = {"version": "2", **({"sources": sources} if sources else {}), "pipelines": list(pipelines)}
    return json.dumps(value, separators=(",", ":"))


def pipeline(name, *stages, build=None):
    made = {"name": name, **({"build": f"name:{build}"} if build else {})}
    return {**made, "stages": list(stages)} if stages else made


def stage(kind, **options):
    return {"type": f"org.osbuild.{kind}", "options": options}


def mkdir(*paths):
    return stage("mkdir", paths=[{"path": path} for path in paths])


def copied(digest, to):
    """Copies an item."""
    given = {"type": "org.osbuild.files", "origin": "org.osbuild.source", "references": [f"sha256:{digest}"]}
    paths = [{"from": f"input://in/sha256:{digest}", "to": f"tree://{to}"}]
    return {"type": "org.osbuild.copy", "inputs": {"in": given}, "options": {"paths": paths}}


def asked(more, names="m.json", exports="os"):
    return f"build --output o --export {exports} {more} {names}".replace("  ", " ")


def two_builds():
    both, marked = "a.json b.json", "--checkpoint * --limit 1073741824 --store s --log"
    usual = asked(marked, both)
    yield Case("two builds", usual, shown=["lists"])
    yield Case("two builds again", usual, before=usual, shown=["lists"])
    yield Case("both builds after the first", usual, before=asked(marked, "a.json"))
    yield Case("the first build after both", asked(marked, "a.json"), before=usual)
    yield Case("two builds again in the other order", asked(marked, "b.json a.json"), before=usual)
    yield Case("four workers where one works", asked(marked + " --workers 4", both))
    yield Case("a manifest twice", asked(marked, "a.json a.json"))
    yield Case("no log", asked("--checkpoint * --store s", both))
    yield Case("nothing marked", asked("--store s --log", both))
    yield Case("nothing marked over a store", asked("--store s --log", both), before=usual)
    yield Case("the pipeline of the tools marked alone", asked("--checkpoint build --store s --log", both))
    yield Case("a checkpoint that nothing has", asked("--checkpoint none --store s --log", both))
    yield Case("no store, and a keeper that is not called", asked("--checkpoint * --log", both), kept=b"no store", fail={"keeper": [1, 2]}, shown=["kept"])
    yield Case("two exports of two builds", asked(marked, both, "build,os"), shown=["lists"])
    yield Case("two exports, one of them named twice", asked(marked, "a.json", "os,build,os"), shown=["done"])
    for limit in [0, 380, 381, 772, 773, 1153, 1154, 1545, 1546, 1926, 1927]:
        yield Case(f"two builds within {limit} bytes", asked(f"--checkpoint * --limit {limit} --store s --log", both))
    for limit in [0, 772, 773, 1545, 1546, 1926]:
        yield Case(f"two builds again within {limit} bytes", asked(f"--checkpoint * --limit {limit} --store s --log", both), before=usual)


def one_directory():
    for limit in [134, 133, 132, 0]:
        yield Case(f"a tree of 133 bytes within {limit}", asked(f"--checkpoint * --limit {limit} --store s --log"))


def opening():
    both = "m.json n.json"
    before = asked("--checkpoint * --store s", both)
    for limit in [266, 265, 200, 133, 132]:
        yield Case(f"an opening of 266 bytes within {limit}", asked(f"--checkpoint * --limit {limit} --store s --log", "m.json"), before=before)
    yield Case("the entry that was used first leaves", asked("--checkpoint * --limit 200 --store s --log", "n.json"), before=asked("--checkpoint * --store s", "n.json m.json"))
    yield Case("an entry of an earlier run makes room", asked("--checkpoint * --limit 199 --store s --log", "n.json"), before=asked("--checkpoint * --store s"))
    yield Case("trees that are not asked for stay", asked("--checkpoint * --store s --log", "l.json"), before=before)


def store_texts():
    words, empty = asked("--store s --log"), store_text([], [], [])
    other = store_text([b"x"], [Recipe("org.osbuild.noop", "{}", ("none",), None, ())], [(0, EMPTY)])
    held = store_text([b"x"], [Recipe("org.osbuild.noop", "{}", ("none",), None, ())], [(0, {**EMPTY, "/f": Node("file", 0o600, 1, 2, b"x")})])
    changed = bytearray(empty)
    changed[16] ^= 1
    yield Case("nothing kept yet", words, shown=["kept"])
    yield Case("the empty store kept", words, kept=empty, shown=["kept"])
    yield Case("a store of something else", words, kept=other, shown=["kept"])
    yield Case("a store without its last byte", words, kept=empty[:-1], shown=["kept"])
    yield Case("a store with one byte more", words, kept=empty + b"\0", shown=["kept"])
    yield Case("a store with a byte of its body changed", words, kept=bytes(changed), shown=["kept"])
    yield Case("a store of no bytes", words, kept=b"", shown=["kept"])
    yield Case("a store of another magic", words, kept=b"OSBCACH2" + empty[8:], shown=["kept"])
    yield Case("a refused store, and no call of the shelf or the exporter", words, kept=empty[:-1], fail={"shelf": [1], "exporter": [1]}, shown=["kept"])
    yield Case("a refused store and a sink that fails", words, kept=empty[:-1], fail={"sink": [1]}, shown=["kept"])
    yield Case("a refused store that is not asked for", asked("--log"), kept=empty[:-1], shown=["kept"])
    yield Case("the tree of an entry, though no stage makes it", asked("--store s --log --checkpoint *", "n.json"), kept=held, shown=["done"])


def items():
    both = asked("--checkpoint * --store s --log", "with.json without.json")
    yield Case("an item of the first manifest alone", both)
    yield Case("an item of the second manifest alone", asked("--checkpoint * --store s --log", "without.json with.json"))
    yield Case("an item that an earlier run had", asked("--checkpoint * --store s --log", "without.json"), before=asked("--checkpoint * --store s", "with.json"))


def outside():
    words, held = asked("--store s"), store_text([], [], [])
    yield Case("a load that fails", words, kept=held, fail={"keeper": [1]}, shown=["kept"])
    yield Case("a load that fails, and no call of the shelf or the exporter", words, fail={"keeper": [1], "shelf": [1], "exporter": [1]})
    yield Case("a load and a sink that fail", words, fail={"keeper": [1], "sink": [1]})
    yield Case("a save that fails", words, fail={"keeper": [2]}, shown=["kept"])
    yield Case("a save over a store that fails", asked("--store s --checkpoint *", "n.json"), kept=held, fail={"keeper": [2]}, shown=["kept"])
    yield Case("a save that fails after a failed build", asked("--store s", "none.json"), fail={"keeper": [2]})
    yield Case("a save and a sink that fail", words, fail={"keeper": [2], "sink": [1]})
    yield Case("a third call of the keeper is never made", words, fail={"keeper": [3]}, shown=["kept"])
    yield Case("a sink that fails at its first write", words, fail={"sink": [1]}, shown=["kept"])
    yield Case("a sink without room for the log", asked("--store s --log"), room=31, shown=["kept"])
    yield Case("a byte at a time", asked("--store s --log"), most=1)
    yield Case("an exporter that fails at its second operation", words, fail={"exporter": [2]}, shown=["done"])
    yield Case("a second manifest that can't be read", asked("--store s --log", "m.json n.json m.json"), fail={"shelf": [2]})
    yield Case("no manifest that can be read", asked("--store s --log", "m.json n.json"), fail={"shelf": [1, 2]})


HELD = {f"sha256:{HELLO}": b"hello\n"}
WRONG = {f"sha256:{HELLO}": b"other\n"}


def mirrors():
    words = asked("--log", "m.json n.json")
    yield Case("two mirrors, the first of which fails", words, mirrors={"one": HELD, "two": HELD}, fail={"one": [1, 2]})
    yield Case("two mirrors that fail at the first build", words, mirrors={"one": HELD, "two": HELD}, fail={"one": [1], "two": [1]})
    yield Case("two mirrors that fail at the second build", words, mirrors={"one": HELD, "two": HELD}, fail={"one": [2], "two": [1]})
    yield Case("two mirrors, one after the other", words, mirrors={"one": HELD, "two": HELD}, fail={"one": [1], "two": [2]})
    yield Case("two mirrors, the first of which is gone", words, mirrors={"one": None, "two": HELD})
    yield Case("two mirrors that are gone", words, mirrors={"one": None, "two": None})
    yield Case("two mirrors, the first of which has other bytes", words, mirrors={"one": WRONG, "two": HELD})
    yield Case("a mirror with other bytes and one that fails", words, mirrors={"one": WRONG, "two": HELD}, fail={"two": [1]})
    yield Case("two mirrors that have nothing", words, mirrors={"one": {}, "two": {}})


def each_call():
    """Each call of two builds with one item of a mirror fails in turn; the last of each is one that is never made."""
    words = asked("--checkpoint * --store s --log", "m.json n.json")
    for name, count in [("shelf", 2), ("one", 2), ("keeper", 2), ("exporter", 6), ("sink", 1)]:
        for number in range(1, count + 2):
            yield Case(f"call {number} of {'the mirror' if name == 'one' else f'the {name}'} fails", words, fail={name: [number]}, shown=["done"])


def side_by_side():
    names = "none.json open.json m.json old.json other.json failing.json m.json"
    marked = "--checkpoint * --store s --log"
    yield Case("every answer of a build side by side", asked(marked, names), shown=["lists"])
    yield Case("every answer of a build side by side again", asked(marked, names), before=asked(marked, names))
    yield Case("a build that fails before one that is exported", asked(marked, "failing.json m.json"))
    yield Case("a build that is exported before one that fails", asked(marked, "m.json failing.json"))
    yield Case("a pipeline that fails for two builds", asked(marked, "failing.json failing.json"))
    yield Case("the first needed pipeline that fails", asked(marked, "several.json", "p2,p1"))
    yield Case("a pipeline that waits for one that fails", asked(marked, "waiting.json"))
    yield Case("a tool that is not in the build pipeline's tree", asked(marked, "tool.json"))
    yield Case("an export beside a pipeline that fails and is not needed", asked(marked, "waiting.json", "bare"))
    yield Case("no build that is ready", asked(marked, "none.json open.json"), shown=["kept"])


def chunks():
    words = asked("--checkpoint * --store s --log")
    yield Case("a tree of two chunks", words)
    yield Case("a tree of two chunks again", words, before=words)


def files_of_answers():
    failing = pipeline("os", mkdir("/etc"), stage("error", returncode=4), mkdir("/usr"))
    return {
        "m.json": manifest(pipeline("os", mkdir("/etc"))),
        "open.json": "{",
        "old.json": '{"version":"1"}',
        "other.json": manifest(pipeline("b")),
        "failing.json": manifest(failing),
        "several.json": manifest(pipeline("p1", stage("noop"), stage("error", returncode=4)), pipeline("p2", stage("error", returncode=5))),
        "waiting.json": manifest(pipeline("bare"), pipeline("b", stage("error", returncode=6)), pipeline("os", mkdir("/x"), build="b")),
        "tool.json": manifest(pipeline("b"), pipeline("os", mkdir("/etc"), stage("users", users={"u": {}}), build="b")),
    }


def small_files():
    return {"m.json": manifest(pipeline("os")), "n.json": manifest(pipeline("os", stage("noop")))}


def groups():
    two = {"a.json": TWO.replace("NAME", "img"), "b.json": TWO.replace("NAME", "two")}
    yield group("Two builds that share the pipeline of their tools.", two_builds(), two)
    yield group("The edge of the limit.", one_directory(), {"m.json": manifest(pipeline("os", mkdir("/etc")))})
    directories = {f"{name}.json": manifest(pipeline("os", mkdir(path))) for name, path in [("m", "/etc"), ("n", "/usr"), ("l", "/var")]}
    yield group("Openings of stores: the entries that were used first leave until the others fit.", opening(), directories)
    yield group("Stores and what is no store.", store_texts(), small_files())
    with_item = pipeline("os", copied(HELLO, "/x"))
    yield group("A manifest has its own items alone.", items(), {"with.json": manifest(with_item, items={HELLO: "aGVsbG8K"}), "without.json": manifest(with_item)})
    yield group("Calls of the outside that fail.", outside(), small_files())
    fetched = {name: manifest(pipeline("os", copied(HELLO, path)), curl=[HELLO]) for name, path in [("m.json", "/x"), ("n.json", "/y")]}
    yield group("Items of mirrors.", mirrors(), fetched)
    yield group("Each call fails in turn.", each_call(), fetched, {"one": HELD})
    yield group("Builds with other answers.", side_by_side(), files_of_answers())
    many = manifest(pipeline("os", mkdir(*[f"/d{number}" for number in range(300)])))
    yield group("A tree of more than one chunk.", chunks(), {"m.json": many})


def main():
    print("# Printed by vectors/runs.py: whole runs, over stores that earlier runs left.\n")
    print("\n".join(groups()), end="")


if __name__ == "__main__":
    main()
