"""Stores by their format alone: prints the cases of the store, or compares generated stores with the program.

Usage: python3 vectors/stores.py > crates/osb_cases/data/stores.cases
       python3 vectors/stores.py compare PROGRAM FOLDER

With `compare` some hundred generated stores, whole and damaged, are written into a case file of FOLDER, which PROGRAM,
`osb_cases`, runs. It writes each store that it reads again, and the bytes have to be the same.
"""

import hashlib
import json
import os
import random
import struct
import subprocess
import sys

MAGIC = b"OSBCACH1"
MOST_BLOB = 16 * 1024 * 1024


# ---- writing


def u64(number):
    return struct.pack(">Q", number % 2**64)


def u32(number):
    return struct.pack(">I", number)


def field(data):
    return u64(len(data)) + data


def ref(key):
    return b"\x01" if key is None else b"\x02" + u64(key)


def text(value):
    return json.dumps(value, sort_keys=True).encode()


def recipe(kind, options, base=None, build=b"\x00", inputs=()):
    """`base`: a key, or None for the empty tree. `build`: its bytes. `inputs`: pairs of name and bytes."""
    spelled = options if isinstance(options, bytes) else text(options)
    listed = b"".join(field(name) + content for name, content in inputs)
    return field(kind.encode()) + field(spelled) + build + ref(base) + u64(len(inputs)) + listed


def tree_input(key):
    return b"\x03" + ref(key)


def files_input(numbers):
    return b"\x04" + u64(len(numbers)) + b"".join(map(u64, numbers))


def directory(path, mode=0o755, uid=0, gid=0):
    return b"\x01" + u32(mode) + u32(uid) + u32(gid) + field(path) + field(b"")


def regular(path, content, mode=0o644, uid=0, gid=0):
    return b"\x02" + u32(mode) + u32(uid) + u32(gid) + field(path) + field(content)


def link(path, target, mode=0o777, uid=0, gid=0):
    return b"\x03" + u32(mode) + u32(uid) + u32(gid) + field(path) + field(target)


def entry(key, nodes):
    return u64(key) + u64(len(nodes)) + b"".join(nodes)


def listed(items):
    return u64(len(items)) + b"".join(items)


def body(blobs=(), recipes=(), entries=()):
    return listed([field(blob) for blob in blobs]) + listed(list(recipes)) + listed(list(entries))


def sealed(inner):
    head = MAGIC + u64(len(inner)) + inner
    return head + hashlib.sha256(head).digest()


def mkdir(*paths):
    return {"paths": [{"path": path} for path in paths]}


def store(blobs=(), recipes=(), entries=()):
    return sealed(body(blobs, recipes, entries))


# ---- reading: which of the first four refusals applies


def outer_refusal(data):
    if data[:8] != MAGIC[: len(data)]:
        return "1 Magic"
    if len(data) < 16:
        return "2 Truncated"
    length = 48 + struct.unpack(">Q", data[8:16])[0]
    if len(data) < length:
        return "2 Truncated"
    if len(data) > length:
        return "3 TrailingBytes"
    if hashlib.sha256(data[:-32]).digest() != data[-32:]:
        return "4 Digest"
    return None


# ---- cases


def block(lines):
    return "".join(f"    {line}\n" for line in lines)


def hex_lines(data):
    digits = data.hex()
    return [f"hex {digits[start : start + 100]}" for start in range(0, len(digits), 100)] or ["text "]


def read_case(name, data, came):
    """`came`: a refusal, or how many blobs, recipes and entries there are."""
    return f"case {name}\nbytes parts\n{block(hex_lines(data))}due read {came}\n"


A = mkdir("/a")
KIND = "org.osbuild.mkdir"
ROOT = directory(b"/")
SMALL = store(recipes=[recipe(KIND, A)], entries=[entry(0, [ROOT, directory(b"/a")])])


def whole(blobs, recipes, entries):
    return f"{blobs} blobs, {recipes} recipes, {entries} entries"


def stored():
    yield "an empty store", store(), whole(0, 0, 0)
    yield "a recipe with its tree", SMALL, whole(0, 1, 1)
    yield "a recipe without its tree", store(recipes=[recipe(KIND, A)]), whole(0, 1, 0)
    low, high = sorted([b"one", b"two"], key=lambda data: hashlib.sha256(data).digest())
    inputs = [(b"f", files_input([0, 1])), (b"t", tree_input(0)), (b"u", tree_input(None))]
    copies = {"paths": [{"from": "input://t/a", "to": "tree:///b"}]}
    rich = [recipe(KIND, A), recipe(KIND, mkdir("/b"), base=0), recipe("org.osbuild.copy", copies, base=1, build=ref(1), inputs=inputs)]
    nodes = [ROOT, directory(b"/a", 0o700, 5, 6), regular(b"/a/f", b"bytes"), link(b"/l", b"a/f")]
    yield "blobs, inputs, a build tree and all kinds of nodes", store([low, high], rich, [entry(2, nodes), entry(0, [ROOT])]), whole(2, 3, 2)
    yield "a build in the empty tree", store(recipes=[recipe(KIND, A, build=b"\x01")]), whole(0, 1, 0)
    yield "the highest mode and owners", store(recipes=[recipe(KIND, A)], entries=[entry(0, [ROOT, directory(b"/a", 4095, 2**32 - 2, 2**32 - 2)])]), whole(0, 1, 1)


def shapes():
    one, two = recipe(KIND, A), recipe(KIND, mkdir("/b"))
    low, high = sorted([b"one", b"two"], key=lambda data: hashlib.sha256(data).digest())
    big = b"\x00" * 7
    yield "a body of nothing", sealed(b""), 0
    yield "a first count of 2^63", sealed(u64(2**63)), 0
    yield "a count of blobs for which there are too few bytes", sealed(u64(3) + u64(0) + u64(0)), 0
    yield "a blob that is cut off", sealed(u64(1) + u64(9) + b"12345678"), 1
    yield "a blob twice", store([b"x", b"x"]), 2
    yield "no count of recipes", sealed(u64(0)), 1
    yield "a count of recipes for which there are too few bytes", sealed(u64(0) + u64(2) + u64(0)), 1
    yield "a recipe of an unknown type", store(recipes=[recipe("org.osbuild.nothing", A)]), 2
    yield "options that the type refuses", store(recipes=[recipe(KIND, {"paths": [{"path": "a"}]})]), 2
    yield "options that are no object", store(recipes=[recipe(KIND, [])]), 2
    yield "options with a blank too many", store(recipes=[recipe(KIND, b'{"paths": [{"path":  "/a"}]}')]), 2
    yield "options with members out of order", store(recipes=[recipe("org.osbuild.chmod", b'{"items": {"/b": {"mode": "0700"}, "/a": {"mode": "0700"}}}')]), 2
    yield "a build of another byte", store(recipes=[recipe(KIND, A, build=b"\x05")]), 2
    yield "a build of the recipe's own place", store(recipes=[recipe(KIND, A, build=ref(0))]), 2
    yield "a base of the recipe's own place", store(recipes=[recipe(KIND, A, base=0)]), 2
    yield "a base of a later recipe", store(recipes=[one, recipe(KIND, A, base=2), two]), 3
    yield "an input of a later recipe", store(recipes=[recipe(KIND, A, inputs=[(b"i", tree_input(0))])]), 2
    yield "an input of another byte", store(recipes=[recipe(KIND, A, inputs=[(b"i", b"\x05")])]), 2
    yield "an input name that is not UTF-8", store(recipes=[recipe(KIND, A, inputs=[(b"\xff", tree_input(None))])]), 2
    yield "an input name twice", store(recipes=[recipe(KIND, A, inputs=[(b"i", tree_input(None)), (b"i", tree_input(None))])]), 2
    yield "input names that fall", store(recipes=[recipe(KIND, A, inputs=[(b"j", tree_input(None)), (b"i", tree_input(None))])]), 2
    yield "a blob that is not there", store([b"x"], [recipe(KIND, A, inputs=[(b"i", files_input([1]))])]), 3
    yield "blobs with falling digests", store([low, high], [recipe(KIND, A, inputs=[(b"i", files_input([1, 0]))])]), 4
    yield "a blob twice in an input", store([low, high], [recipe(KIND, A, inputs=[(b"i", files_input([0, 0]))])]), 4
    yield "a recipe twice", store(recipes=[one, two, one]), 4
    yield "no count of entries", sealed(u64(0) + u64(0)), 2
    yield "an entry of a recipe that is not there", store(recipes=[one], entries=[entry(1, [ROOT])]), 4
    yield "two entries of one key", store(recipes=[one], entries=[entry(0, [ROOT]), entry(0, [ROOT])]), 5
    yield "an entry without nodes", store(recipes=[one], entries=[entry(0, [])]), 4
    yield "a tree with a missing parent", store(recipes=[one], entries=[entry(0, [ROOT, directory(b"/a/b")])]), 4
    yield "a tree without its root", store(recipes=[one], entries=[entry(0, [directory(b"/a")])]), 4
    yield "nodes out of order", store(recipes=[one], entries=[entry(0, [ROOT, directory(b"/b"), directory(b"/a")])]), 4
    yield "a path with a slash at its end", store(recipes=[one], entries=[entry(0, [ROOT, directory(b"/a/")])]), 4
    yield "a path that is not UTF-8", store(recipes=[one], entries=[entry(0, [ROOT, directory(b"/\xff")])]), 4
    yield "a mode of 4096", store(recipes=[one], entries=[entry(0, [ROOT, directory(b"/a", 4096)])]), 4
    yield "an owner of 2^32 - 1", store(recipes=[one], entries=[entry(0, [ROOT, directory(b"/a", 0o755, 2**32 - 1)])]), 4
    yield "a directory with content", store(recipes=[one], entries=[entry(0, [ROOT, b"\x01" + u32(493) + u32(0) + u32(0) + field(b"/a") + field(b"x")])]), 4
    yield "a link with another mode", store(recipes=[one], entries=[entry(0, [ROOT, link(b"/a", b"b", 0o755)])]), 4
    yield "a link without a target", store(recipes=[one], entries=[entry(0, [ROOT, link(b"/a", b"")])]), 4
    yield "a target that is not UTF-8", store(recipes=[one], entries=[entry(0, [ROOT, link(b"/a", b"\xff")])]), 4
    yield "a node of another byte", store(recipes=[one], entries=[entry(0, [b"\x04" + ROOT[1:]])]), 4
    yield "bytes behind the last item", sealed(body() + b"\x00"), 3
    yield "bytes behind the last item of each list", sealed(body([b"x"], [one], [entry(0, [ROOT])]) + big), 6


def outer():
    yield "no bytes", b""
    yield "another magic", b"OSBCACH2" + SMALL[8:]
    yield "a front of the magic", b"OSB"
    yield "the magic alone", MAGIC
    yield "a byte too few", SMALL[:-1]
    yield "a byte too many", SMALL + b"\x00"
    yield "another digest", SMALL[:-1] + bytes([SMALL[-1] ^ 1])
    yield "a length past all bytes", MAGIC + u64(2**64 - 1) + b"\x00" * 40


HEAD = """# Stores as bytes: what is read of them. Printed by vectors/stores.py, which knows the format alone.

call store

"""


def changed_texts():
    """By refusal how many one-bit changes of the small store come to it, and each proper front of it."""
    counts = {}
    for place in range(len(SMALL) * 8):
        data = bytearray(SMALL)
        data[place // 8] ^= 1 << (place % 8)
        refusal = outer_refusal(bytes(data))
        counts[refusal] = counts.get(refusal, 0) + 1
    fronts = {outer_refusal(SMALL[:end]) for end in range(len(SMALL))}
    assert fronts == {"2 Truncated"}, fronts
    return sorted(counts.items())


def cases():
    parts = [HEAD]
    for name, data, came in stored():
        parts.append(read_case(name, data, came))
    for name, data in outer():
        parts.append(read_case(name, data, outer_refusal(data)))
    for name, data, place in shapes():
        assert outer_refusal(data) is None
        parts.append(read_case(name, data, f"5 Shape {place}"))
    bits = [f"{count} {refusal}" for refusal, count in changed_texts()]
    small = f"case each front and each one-bit change of a small store\nbytes parts\n{block(hex_lines(SMALL))}"
    parts.append(f"{small}due fronts\n    {len(SMALL)} 2 Truncated\ndue bits\n{block(bits)}")
    return "\n".join(parts)


# ---- generated stores


def some_tree(rng, depth=0, path=b""):
    nodes = [directory(path or b"/", rng.choice([0o755, 0o700, 4095]), rng.randrange(3), rng.randrange(3))]
    names = sorted({bytes([rng.choice(b"abcz~\x01")]) + b"\xc3\xa9" * rng.randrange(2) for _ in range(rng.randrange(4))})
    for name in names:
        child = path + b"/" + name
        kind = rng.randrange(4)
        if kind == 0:
            nodes.append(link(child, rng.choice([b"x", b"../y", b"\xc3\xa9"])))
        elif kind == 1 or depth == 3:
            nodes.append(regular(child, rng.randbytes(rng.randrange(5)), rng.randrange(4096)))
        else:
            nodes += some_tree(rng, depth + 1, child)
    return nodes


def wide_tree(rng, count):
    return [ROOT, *(directory(b"/" + name) for name in sorted(f"d{number}".encode() for number in range(count)))]


def some_store(rng):
    blobs = list({rng.randbytes(rng.randrange(6)) for _ in range(rng.randrange(4))})
    order = sorted(range(len(blobs)), key=lambda number: hashlib.sha256(blobs[number]).digest())
    recipes = []
    for key in range(rng.randrange(6)):
        def some_key():
            return rng.randrange(key) if key and rng.randrange(2) else None

        inputs = []
        for name in sorted({rng.choice([b"a", b"b", b"\xc3\xa9"]) for _ in range(rng.randrange(3))}):
            chosen = [number for number in order if rng.randrange(2)]
            inputs.append((name, rng.choice([tree_input(some_key()), files_input(chosen)])))
        build = rng.choice([b"\x00", ref(some_key())])
        one = recipe(KIND, mkdir(f"/{key}\u00e9\U0001f600\"\\"), some_key(), build, inputs)
        recipes.append(one)
    keys = [key for key in range(len(recipes)) if rng.randrange(2)]
    rng.shuffle(keys)
    trees = [wide_tree(rng, rng.choice([254, 255, 256, 257, 600])) if rng.randrange(8) == 0 else some_tree(rng) for _ in keys]
    return blobs, recipes, [entry(key, nodes) for key, nodes in zip(keys, trees)]


def compare(program, folder):
    rng = random.Random(1)
    parts = [HEAD]
    for number in range(300):
        blobs, recipes, entries = some_store(rng)
        data = store(blobs, recipes, entries)
        parts.append(read_case(f"store {number}", data, whole(len(blobs), len(recipes), len(entries))))
        if len(data) < 3000:
            place = rng.randrange(len(data))
            damaged = bytearray(data)
            damaged[place] ^= 1 << rng.randrange(8)
            refusal = outer_refusal(bytes(damaged))
            parts.append(read_case(f"store {number} damaged", bytes(damaged), refusal))
            inner = bytearray(data[16:-32])
            if inner:
                cut = rng.randrange(len(inner))
                parts.append(read_case(f"store {number} cut", data[: 16 + cut], outer_refusal(data[: 16 + cut])))
    name = os.path.join(folder, "generated.cases")
    with open(name, "w", encoding="utf-8") as file:
        file.write("\n".join(parts))
    ran = subprocess.run([program, name], capture_output=True, text=True, check=False)
    print(ran.stdout[:2000], ran.stderr)
    return 1 if ran.stdout or ran.returncode else 0


def main(arguments):
    if arguments[:1] == ["compare"]:
        return compare(*arguments[1:])
    print(cases(), end="")
    return 0


if __name__ == "__main__":
    sys.exit(main(sys.argv[1:]))
