"""Compares the stages `groups` and `users` with the reading of account files in account_rules.py.

Usage: python3 vectors/accounts.py PROGRAM [COUNT] [SEED]

PROGRAM is osb_cases. Random trees and options are written as case files, with what is due, into a folder of their own,
and PROGRAM is run there with the names of these files.
"""

import json
import random
import re
import sys
import tempfile
from collections import Counter
from pathlib import Path

from account_rules import FIELDS, LAST_NUMBER, Node, run
from compared import all_agree

CASES_OF_A_FILE = 250
NAMES = ["amy", "bob", "cid", "Amy", "_g", "9", "d.e-f", "games"]
GROUP_NAMES = NAMES + ["wheel", "adm", "a" * 32]
NUMBERS = [0, 1, 5, 10, 998, 999, 1000, 1001, 1002, 1003, 1005, 60000, 60001, LAST_NUMBER]
PLACES = ["/home/amy", "/home/bob", "/srv", "/srv/x", "/home/cid"]
HOMES = PLACES + ["/", "/home//amy/", "/new/deep/er", "/etc/group", "/etc/shadow/x", "/é/ü", "/h h", "/" + "h" * 4080]
WORDS = ["", "x", "a b", "é", "a,b", "/bin/sh", "$6$s$h", "\t"]
BAD_LINES = [b"x", b" ", b"\r", b"a:x:1", b"a:1:2:3:4:5:6:7:8:9", b"a:x::", b"a:x:-1:1:::", b"a:x:4294967295:"]
BAD_LINES += [b"a:x:5:5x:::", b"a:x:+5:5:::", b"a:x:00000000005:5:::"]
BAD_HOMES = [b"", b"rel", b"/a/../b", b"/.", b"/\xff", b"/a\0", b"/" + b"h" * 4096]
BAD_VALUES = [None, True, 1.5, -1, LAST_NUMBER + 1, 2**64, "", "-a", "a:b", "/a:b", "/a\nb", "b\n", "\0", "e" * 4097]
BAD_VALUES += [[], {}, ["a:b"], [1], [""], ["amy", None]]


def chance(rng, share):
    return rng.random() < share


def spelt(rng, number):
    return (b"%010d" if chance(rng, 0.2) else b"%d") % number


def a_line(rng, file):
    if chance(rng, 0.1):
        return b""
    if chance(rng, 0.008):
        return rng.choice(BAD_LINES)
    name = rng.choice(GROUP_NAMES).encode()
    word = rng.choice(WORDS + ["*"]).encode()
    if file == "group":
        members = rng.sample(NAMES + [""], rng.randrange(4))
        return b":".join([name, word, spelt(rng, rng.choice(NUMBERS)), ",".join(members).encode()])
    if file == "shadow":
        return b":".join([name, word] + [rng.choice([b"", b"7", b"x"]) for _ in range(7)])
    home = rng.choice(BAD_HOMES) if chance(rng, 0.15) else rng.choice(HOMES).encode()
    uid, gid = rng.choice(NUMBERS), rng.choice(NUMBERS)
    return b":".join([name, b"x", spelt(rng, uid), spelt(rng, gid), word, home, b"/bin/sh"])


def a_content(rng, lines):
    return b"\n".join(lines) + (b"" if chance(rng, 0.3) else b"\n") * bool(lines)


def a_directory(rng):
    mode, uid, gid = rng.choice([(0o755, 0, 0), (0o711, 3, 4), (0o1777, LAST_NUMBER, 5)])
    return Node("dir", mode, uid, gid, None)


def a_node(rng, share, content):
    """Of this share a node of another kind than a file of this content."""
    if chance(rng, share):
        return rng.choice([a_directory(rng), Node("link", None, 1, 2, b"x")])
    if not content:
        return Node("file", rng.choice([0o600, 0o4644, 0]), 7, 8, b"")
    return Node("file", 0o644, 0, 0, content)


def put_directory(rng, tree, path, share):
    """Puts a directory, of this share another node; whether it is a directory."""
    if path not in tree:
        tree[path] = a_node(rng, 0.5, b"f") if chance(rng, share) else a_directory(rng)
    return tree[path].kind == "dir"


def a_tree(rng):
    tree = {"/": Node("dir", 0o755, 0, 0, None)}
    if not chance(rng, 0.02) and put_directory(rng, tree, "/etc", 0.02):
        for file in FIELDS:
            if chance(rng, 0.85):
                content = a_content(rng, [a_line(rng, file) for _ in range(rng.randrange(7))])
                tree["/etc/" + file] = a_node(rng, 0.015, content)
    for place in PLACES:
        parent = place.rpartition("/")[0]
        if chance(rng, 0.5) or parent and not put_directory(rng, tree, parent, 0.04):
            continue
        if put_directory(rng, tree, place, 0.06) and chance(rng, 0.6):
            if put_directory(rng, tree, place + "/.ssh", 0.08) and chance(rng, 0.8):
                keys = [rng.choice([b"old", b"", b"\xff"]) for _ in range(rng.randrange(3))]
                tree[place + "/.ssh/authorized_keys"] = a_node(rng, 0.1, a_content(rng, keys))
    return tree


def a_value(rng, member):
    if chance(rng, 0.012):
        return rng.choice(BAD_VALUES)
    values = {"uid": NUMBERS + [42, 43], "gid": NUMBERS + [77], "home": HOMES, "key": ["k", "", "ssh-a é", "a:b"]}
    if member == "groups":
        return rng.sample(GROUP_NAMES, rng.choice([0, 1, 1, 2]))
    if member == "keys":
        return [rng.choice(values["key"]) for _ in range(rng.randrange(3))]
    return rng.choice(values.get(member, [word for word in WORDS if ":" not in word]))


def an_account(rng, stage):
    if stage == "groups":
        shares = {"gid": 0.5, "members": 0.005}
    else:
        members = ["uid", "gid", "description", "home", "shell", "password", "key", "keys"]
        shares = {"groups": 0.12} | dict.fromkeys(members, 0.3) | {"expiredate": 0.005}
    return {member: a_value(rng, member) for member, share in shares.items() if chance(rng, share)}


def some_options(rng, stage):
    if chance(rng, 0.02):
        return rng.choice([{}, {"x": 1}, {stage: []}, {stage: None}, {stage: {}, "x": 1}, {stage: {"a": 1}, "b": 1}])
    names = rng.sample(GROUP_NAMES, rng.choice([0, 1, 1, 1, 2, 2, 3]))
    if chance(rng, 0.02):
        names.append(rng.choice(["", "-a", "a b", "é", "a" * 33]))
    accounts = {name: None if chance(rng, 0.005) else an_account(rng, stage) for name in names}
    return {stage: accounts} | ({"y": 1} if chance(rng, 0.01) else {})


# ---- case files


def names_of(path):
    return [name.encode() for name in path.split("/") if name]


def block(data):
    """A text as it stands behind its section in a case file."""
    return " parts\n    hex " + data.hex() if data else ""


def node_line(path, node):
    if node.kind == "link":
        return f"link {path} {node.uid} {node.gid} {node.data.decode()}\n"
    length = f" {len(node.data)}" if node.kind == "file" else ""
    return f"{node.kind} {path} {node.mode:04o} {node.uid} {node.gid}{length}\n"


def put_line(path, node):
    if node.kind == "link":
        return f"    link {path} {node.data.decode()} {node.uid} {node.gid}"
    length = " 0" if node.kind == "file" else ""
    return f"    {node.kind} {path}{length} {node.mode:04o} {node.uid} {node.gid}"


def lines_of_case(number, stage, options, before, answer, after):
    yield f"case {number}"
    yield f"type org.osbuild.{stage}"
    yield "puts"
    yield from (put_line(path, node) for path, node in before.items() if path != "/")
    for path, node in before.items():
        if node.kind == "file" and node.data:
            yield f"content {path}{block(node.data)}"
    yield "options " + json.dumps(options)
    yield "due answer" + block(answer.encode())
    if after is None:
        yield "due nodes none"
        return
    nodes = sorted(after.items(), key=lambda item: names_of(item[0]))
    yield "due nodes" + block("".join(node_line(path, node) for path, node in nodes).encode())
    for path, node in nodes:
        if node.kind == "file" and " " not in path:
            yield f"due content {path}{block(node.data)}"


def main():
    program = str(Path(sys.argv[1]).resolve())
    count = int(sys.argv[2]) if len(sys.argv) > 2 else 5000
    rng = random.Random(int(sys.argv[3]) if len(sys.argv) > 3 else 1)
    kinds = Counter()
    with tempfile.TemporaryDirectory() as folder:
        files = []
        for first in range(0, count, CASES_OF_A_FILE):
            lines = ["call stage"]
            for number in range(first, min(first + CASES_OF_A_FILE, count)):
                stage = rng.choice(["groups", "users", "users", "users"])
                options, before = some_options(rng, stage), a_tree(rng)
                answer, after = run(stage, options, before)
                kinds[re.sub("^((fault|options) [0-9]+ [A-Za-z]+).*", r"\1", answer, flags=re.DOTALL)] += 1
                lines += lines_of_case(number, stage, options, before, answer, after)
            files.append(f"accounts-{first}.cases")
            Path(folder, files[-1]).write_text("\n".join(lines) + "\n", encoding="utf-8")
        return 0 if all_agree(program, folder, files, kinds, count) else 1


if __name__ == "__main__":
    sys.exit(main())
