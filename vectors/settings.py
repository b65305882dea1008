"""Lists of words as cases of the kind `settings`, with what a plain reading of the table of options gives for each.

    python3 vectors/settings.py > crates/osb_cases/data/settings.cases
"""

import re

VALUED = ["store", "output", "export", "checkpoint", "limit", "workers", "mirror"]
MOST_LIMIT = 2**62


class Refused(Exception):
    pass


# ---- the words


def options_of(words):
    """The values of options by name, whether `--log` is given, and the other words."""
    values, log, others = {}, False, []
    words = list(words)
    while words:
        word = words.pop(0)
        if word == "--":
            return values, log, others + words
        if word.startswith("--"):
            name, equals, value = word[2:].partition("=")
            if name == "log":
                if equals or log:
                    raise Refused
                log = True
            elif name in VALUED:
                if not equals:
                    value = value_word(words)
                if name in values:
                    raise Refused
                values[name] = value
            else:
                raise Refused
        elif word.startswith("-") and word != "-":
            raise Refused
        else:
            others.append(word)
    return values, log, others


def value_word(words):
    if not words or (words[0].startswith("-") and words[0] != "-"):
        raise Refused
    return words.pop(0)


# ---- the values


def named(text):
    if not text:
        raise Refused
    return text


def parts(text, divider):
    found = []
    for part in text.split(divider):
        if named(part) not in found:
            found.append(part)
    return found


def pipeline(text):
    if not re.fullmatch(r"[A-Za-z0-9_][A-Za-z0-9_.-]{0,127}", text):
        raise Refused
    return text


def number(text, least, most):
    if not re.fullmatch(r"[0-9]{1,19}", text) or not least <= int(text) <= most:
        raise Refused
    return int(text)


def limit(text):
    return MOST_LIMIT if text == "unlimited" else number(text, 0, MOST_LIMIT)


def checkpoint(text):
    return "*" if text == "*" else pipeline(text)


def settings(words):
    """The lines of the settings."""
    if not words or words[0] != "build":
        raise Refused
    values, log, others = options_of(words[1:])
    if "output" not in values or "export" not in values or not 1 <= len(others) <= 256:
        raise Refused
    lines = []
    if "store" in values:
        lines.append(f"store {named(values['store'])}")
    lines.append(f"output {named(values['output'])}")
    lines.append(f"limit {limit(values.get('limit', 'unlimited'))}")
    lines.append(f"workers {number(values.get('workers', '1'), 1, 64)}")
    lines += [f"export {pipeline(part)}" for part in parts(values["export"], ",")]
    if "checkpoint" in values:
        lines += [f"checkpoint {checkpoint(part)}" for part in parts(values["checkpoint"], ",")]
    if "mirror" in values:
        lines += [f"mirror {part}" for part in parts(values["mirror"], ":")]
    if log:
        lines.append("log")
    return lines + [f"manifest {named(other)}" for other in others]


# ---- cases

USUAL = "build --output o --export os"
IDENTIFIER = "0123456789abcdef" * 4


def usual(more, last="m.json"):
    return f"{USUAL} {more} {last}"


CASES = [
    ("no words but build", "build"),
    ("the least", f"{USUAL} m.json"),
    ("without build", "--output o --export os m.json"),
    ("another first word", "Build --output o --export os m.json"),
    ("build is not the first", "--log build --output o --export os m.json"),
    ("a manifest alone", "build m.json"),
    ("without an output", "build --export os m.json"),
    ("without exports", "build --output o m.json"),
    ("without manifests", USUAL),
    ("everything", usual("--store s --checkpoint *,a --limit 5 --workers 4 --mirror x:y --log")),
    ("two builds over a store", f"{USUAL} --checkpoint * --limit 1073741824 --store s --log a.json b.json"),
    ("two builds by four workers", f"{USUAL} --checkpoint * --limit 1073741824 --store s --workers 4 a.json b.json"),
    ("exports in another order", "build --output o --export p2,p1 m.json"),
    ("two mirrors", usual("--mirror gone:held")),
    ("every last stage, within a limit", usual("--checkpoint * --limit 133")),
    ("a store alone", usual("--store s")),
    ("the words of a demo", "demo 8 4"),
    ("the words of an inspection", "inspect m.json"),
    ("manifests between options", "build a --output o b --export os c --log d"),
    ("options behind the manifests", "build a b --export os --output o"),
    ("values behind an equals sign", "build --output=o --export=os --store=s --limit=7 m.json"),
    ("an equals sign in a value", usual("--store=a=b")),
    ("a store twice", usual("--store s --store s")),
    ("an output twice", usual("--output o")),
    ("exports twice", usual("--export os")),
    ("checkpoints twice", usual("--checkpoint a --checkpoint b")),
    ("a limit twice", usual("--limit 1 --limit 1")),
    ("workers twice", usual("--workers 1 --workers 1")),
    ("mirrors twice", usual("--mirror a --mirror b")),
    ("a log twice", usual("--log --log")),
    ("a log with a value", usual("--log=true")),
    ("a log with an empty value", usual("--log=")),
    ("a store without a value", f"{USUAL} m.json --store"),
    ("a store before a flag", usual("--store --log")),
    ("a store of an empty name", usual("--store=")),
    ("a store of an empty word", f"{USUAL} --store  m.json"),
    ("a store of a dash", usual("--store -")),
    ("an output of an empty name", "build --output= --export os m.json"),
    ("exports of no name", "build --output o --export= m.json"),
    ("two exports", "build --output o --export b,a m.json"),
    ("equal exports", "build --output o --export b,a,b,a m.json"),
    ("an empty export between two", "build --output o --export a,,b m.json"),
    ("an empty export at the end", "build --output o --export a, m.json"),
    ("an empty export at the start", "build --output o --export ,a m.json"),
    ("a comma alone for exports", "build --output o --export , m.json"),
    ("an export that begins with a point", "build --output o --export .a m.json"),
    ("an export that begins with a low line", "build --output o --export _a.-B9 m.json"),
    ("an export with a slash", "build --output o --export a/b m.json"),
    ("an export that is a star", "build --output o --export * m.json"),
    ("an export with another letter", "build --output o --export é m.json"),
    ("an export of 128 letters", f"build --output o --export {'a' * 128} m.json"),
    ("an export of 129 letters", f"build --output o --export {'a' * 129} m.json"),
    ("a star among checkpoints", usual("--checkpoint a,*,b")),
    ("two stars among checkpoints", usual("--checkpoint *,*")),
    ("a star with more behind it", usual("--checkpoint *a")),
    ("an identifier", usual(f"--checkpoint {IDENTIFIER},a,{IDENTIFIER}")),
    ("an empty checkpoint", usual("--checkpoint a,,b")),
    ("checkpoints of no name", usual("--checkpoint=")),
    ("no limit", usual("--limit unlimited")),
    ("a limit in capitals", usual("--limit Unlimited")),
    ("a limit of 0", usual("--limit 0")),
    ("a limit of 2^62", usual(f"--limit {2**62}")),
    ("a limit of 2^62 and one", usual(f"--limit {2**62 + 1}")),
    ("a limit of 19 digits", usual("--limit 0000000000000000012")),
    ("a limit of 20 digits", usual("--limit 00000000000000000012")),
    ("a limit past 64 bits", usual("--limit 18446744073709551617")),
    ("an empty limit", usual("--limit=")),
    ("a limit with a sign", usual("--limit=+1")),
    ("a limit below 0", usual("--limit=-1")),
    ("a limit below 0 as a word of its own", usual("--limit -1")),
    ("a limit with a letter", usual("--limit 1k")),
    ("a limit with a low line", usual("--limit 1_000")),
    ("0 workers", usual("--workers 0")),
    ("1 worker", usual("--workers 1")),
    ("64 workers", usual("--workers 64")),
    ("65 workers", usual("--workers 65")),
    ("workers with leading zeros", usual("--workers 0064")),
    ("unlimited workers", usual("--workers unlimited")),
    ("a mirror", usual("--mirror a")),
    ("mirrors with equal parts", usual("--mirror b:a,c:b:a,c:d")),
    ("an empty mirror", usual("--mirror a::b")),
    ("mirrors of no name", usual("--mirror=")),
    ("a colon alone for mirrors", usual("--mirror :")),
    ("an option that there isn't", usual("--force")),
    ("an option that is a front", usual("--lim 1")),
    ("a short option", usual("-o x")),
    ("help", usual("--help")),
    ("help in short", usual("-h")),
    ("a version", usual("--version")),
    ("a version in short", usual("-V")),
    ("help as a manifest", usual("", "help").replace("  ", " ")),
    ("a dash as a manifest", usual("", "-").replace("  ", " ")),
    ("dashes before the manifests", f"{USUAL} -- --log -x --"),
    ("dashes and no manifest", f"{USUAL} --"),
    ("dashes in the place of a value", f"{USUAL} m.json --store -- s"),
    ("an option behind the dashes", "build --output o -- --export os m.json"),
    ("an empty manifest", f"{USUAL}  m.json"),
    ("one manifest twice", f"{USUAL} m.json m.json"),
    ("256 manifests", " ".join([USUAL] + [f"m{i}" for i in range(256)])),
    ("257 manifests", " ".join([USUAL] + [f"m{i}" for i in range(257)])),
]

def answer(words):
    try:
        return settings(words)
    except Refused:
        return ["words refused"]


def printed(name, words, lines):
    text = [f"case {name}", f"words {words}", "due answer"] + [f"    {line}" for line in lines]
    return "\n".join(text) + "\n"


def main():
    print("# Printed by vectors/settings.py: lists of words, and the settings that they ask for.\n")
    print("call settings\n")
    texts = [printed(name, words, answer(words.split(" "))) for name, words in CASES]
    print("\n".join(texts), end="")


main()
