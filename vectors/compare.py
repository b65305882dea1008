"""Compares the program osb_pytext with Python's own json.dumps(value, sort_keys=True).

Usage: python3 vectors/compare.py PROGRAM [COUNT] [SEED]
"""

import json
import random
import subprocess
import sys

CHARACTERS = (
    [chr(code) for code in range(0x00, 0x20)]
    + list("\"\\/ az09~\x7f")
    + ["\x80", "\xe9", "\u07ff", "\u0800", "\u2028", "\ud7ff", "\ue000", "\uff61", "\uffff"]
    + ["\U00010000", "\U0001f600", "\U0010ffff"]
)
WHOLE_NUMBERS = [0, 1, 9, 10, 99, 100, 2**31, 2**53, 2**63 - 1, 2**63, 2**64 - 1, -1, -10, -(2**31), -(2**63)]
OTHER_NUMBERS = ["1.0", "-0", "0.5", "1e3", "18446744073709551616", "-9223372036854775809"]


class Other(float):
    """A number that is none of the whole numbers from -2^63 to 2^64-1, as it is spelt."""

    def __new__(cls, spelling):
        other = super().__new__(cls, spelling)
        other.spelling = spelling
        return other

    def __repr__(self):
        return self.spelling


def a_text(rng):
    if rng.random() < 0.1:
        return chr(rng.choice([rng.randrange(0xD800), rng.randrange(0xE000, 0x110000)]))
    return "".join(rng.choice(CHARACTERS) for _ in range(rng.randrange(6)))


def a_number(rng):
    if rng.random() < 0.03:
        return Other(rng.choice(OTHER_NUMBERS))
    if rng.random() < 0.5:
        return rng.choice(WHOLE_NUMBERS)
    return rng.randrange(-(2 ** rng.randrange(64)), 2 ** rng.randrange(65))


def a_value(rng, depth):
    kind = rng.randrange(7 if depth > 0 else 5)
    if kind == 0:
        return None
    if kind == 1:
        return rng.random() < 0.5
    if kind == 2:
        return a_number(rng)
    if kind < 5:
        return a_text(rng)
    size = rng.randrange(5)
    if kind == 5:
        return [a_value(rng, depth - 1) for _ in range(size)]
    return {a_text(rng): a_value(rng, depth - 1) for _ in range(size)}


def has_other(value):
    if isinstance(value, dict):
        return any(has_other(member) for member in value.values())
    if isinstance(value, list):
        return any(has_other(item) for item in value)
    return isinstance(value, Other)


def spelt(rng, value):
    """The value as JSON on one line, in one of several layouts."""
    if isinstance(value, Other):
        return value.spelling
    blank = rng.choice(["", "", " ", "\t"])
    if isinstance(value, dict):
        members = [f"{spelt(rng, key)}{blank}:{spelt(rng, member)}" for key, member in value.items()]
        return "{" + f",{blank}".join(members) + blank + "}"
    if isinstance(value, list):
        return "[" + f",{blank}".join(spelt(rng, item) for item in value) + "]"
    return json.dumps(value, ensure_ascii=rng.random() < 0.5)


def main():
    program = sys.argv[1]
    count = int(sys.argv[2]) if len(sys.argv) > 2 else 5000
    rng = random.Random(int(sys.argv[3]) if len(sys.argv) > 3 else 1)
    values = [a_value(rng, 5) for _ in range(count)]
    lines = [spelt(rng, value) for value in values]
    wanted = ["not whole" if has_other(value) else json.dumps(value, sort_keys=True) for value in values]
    run = subprocess.run([program], input="".join(line + "\n" for line in lines).encode(), capture_output=True, check=True)
    given = run.stdout.decode().split("\n")[:-1]
    if len(given) != count:
        sys.exit(f"{count} values, and {len(given)} answers")
    for line, want, got in zip(lines, wanted, given):
        if want != got:
            sys.exit(f"of {line}\nPython gives {want}\nand the program {got}")
    print(f"{count} values, {wanted.count('not whole')} of them not whole: all as Python gives them")


if __name__ == "__main__":
    main()
