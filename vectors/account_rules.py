"""What the stages `groups` and `users` make of a tree: a reading of passwd(5), group(5) and shadow(5) of its own.

A tree is a dictionary from the text of a path to a Node, whose data is a file's content or a link's target.
"""

import re
from collections import namedtuple
from functools import partial

LAST_NUMBER = 4294967294
NAME = re.compile("[A-Za-z0-9_][A-Za-z0-9_.-]{0,31}")
FIELDS = {"passwd": 7, "group": 4, "shadow": 9}
NUMBERS = {"passwd": (2, 3), "group": (2,), "shadow": ()}
Node = namedtuple("Node", "kind mode uid gid data")


class Fault(Exception):
    pass


def check(holds, answer):
    if not holds:
        raise Fault(answer)


# ---- what the options say


def number(member, value):
    check(isinstance(value, (int, float)) and not isinstance(value, bool), f"options 2 WrongKind {member}")
    check(isinstance(value, int) and 0 <= value <= LAST_NUMBER, f"options 3 OutOfRange {member}")
    return value


def text(member, value, refused):
    check(isinstance(value, str), f"options 2 WrongKind {member}")
    check(len(value.encode()) <= 4096 and not set(value) & set(refused), f"options 3 OutOfRange {member}")
    return value


field = partial(text, refused="\0\n:")
key = partial(text, refused="\0\n")


def account(member, value):
    check(isinstance(value, str), f"options 2 WrongKind {member}")
    check(NAME.fullmatch(value), f"options 3 OutOfRange {member}")
    return value


def path_of(spelling):
    """The shortest spelling of a path, or None."""
    names = [name for name in spelling.split("/") if name]
    path = "/" + "/".join(names)
    is_path = spelling[:1] == "/" and "\0" not in spelling and not {".", ".."} & set(names)
    return path if is_path and len(path.encode()) <= 4096 else None


def home(member, value):
    check(isinstance(value, str), f"options 2 WrongKind {member}")
    path = path_of(value)
    check(path, f"options 4 BadPath {member}")
    return field(member, path)


def listed(member, value, read):
    check(isinstance(value, list), f"options 2 WrongKind {member}")
    return [read(member, item) for item in value]


MEMBERS = {
    "groups": {"gid": number},
    "users": {"uid": number, "gid": number, "groups": partial(listed, read=account), "description": field, "home": home,
              "shell": field, "password": field, "key": key, "keys": partial(listed, read=key)},
}


def no_others(known, given):
    for name in sorted(given):
        check(name in known, f"options 5 UnknownMember {name}")


def read_options(stage, options):
    """The accounts by rising name, each with the members that are given."""
    check(stage in options, f"options 1 Missing {stage}")
    check(isinstance(options[stage], dict), f"options 2 WrongKind {stage}")
    accounts = {}
    for name, given in sorted(options[stage].items()):
        account(name, name)
        check(isinstance(given, dict), f"options 2 WrongKind {name}")
        known = MEMBERS[stage]
        accounts[name] = {member: read(member, given[member]) for member, read in known.items() if member in given}
        no_others(known, given)
    no_others([stage], options)
    return accounts


def is_line(file, fields):
    numbers = [fields[place] for place in NUMBERS[file]] if len(fields) == FIELDS[file] else [b"none"]
    return all(re.fullmatch(b"[0-9]{1,10}", one) and int(one) <= LAST_NUMBER for one in numbers)


def read_lines(tree, file):
    """The lines of an account file, each a list of fields; an empty line has one, which is empty."""
    path = "/etc/" + file
    node = tree.get(path, Node("file", 0, 0, 0, b""))
    check(node.kind == "file", f"fault 4 NotAFile {path}")
    lines = [line.split(b":") for line in node.data.removesuffix(b"\n").split(b"\n")] if node.data else []
    for place, fields in enumerate(lines, 1):
        check(fields == [b""] or is_line(file, fields), f"fault 9 BadLine {path} {place}")
    return lines


def write_lines(tree, file, lines):
    path = "/etc/" + file
    data = b"".join(b":".join(fields) + b"\n" for fields in lines)
    if path in tree:
        tree[path] = tree[path]._replace(data=data)
    elif lines:
        check("/etc" in tree, "fault 1 Missing /etc")
        check(tree["/etc"].kind == "dir", "fault 3 NotADir /etc")
        tree[path] = Node("file", 0o600 if file == "shadow" else 0o644, 0, 0, data)


def line_of(name, lines):
    return next((fields for fields in lines if fields[0] == name.encode()), None)


def in_use(lines):
    return [int(fields[2]) for fields in lines if len(fields) > 2]


def least_free(lines):
    free = set(range(1000, 60001)) - set(in_use(lines))
    check(free, "fault 8 NumberTaken 60000")
    return min(free)


def not_in_use(wanted, lines):
    check(wanted not in in_use(lines), f"fault 8 NumberTaken {wanted}")
    return wanted


def a_line(*fields):
    return [str(one).encode() for one in fields]


def do_groups(tree, groups):
    lines = read_lines(tree, "group")
    for name, group in groups.items():
        check(not line_of(name, lines), f"fault 7 AccountExists {name}")
        gid = not_in_use(group["gid"], lines) if "gid" in group else least_free(lines)
        lines.append(a_line(name, "x", gid, ""))
    write_lines(tree, "group", lines)


def add_user(name, user, passwd, group):
    uid = not_in_use(user["uid"], passwd) if "uid" in user else least_free(passwd)
    if "gid" in user:
        gid = user["gid"]
    elif own := line_of(name, group):
        gid = int(own[2])
    else:
        gid = least_free(group) if uid in in_use(group) else uid
        group.append(a_line(name, "x", gid, ""))
    given = user.get("description", ""), user.get("home", "/home/" + name), user.get("shell", "/bin/bash")
    passwd.append(a_line(name, "x", uid, gid, *given))


def change_user(line, user, passwd):
    if "uid" in user:
        not_in_use(user["uid"], [other for other in passwd if other is not line])
    for place, member in enumerate(["uid", "gid", "description", "home", "shell"], 2):
        if member in user:
            line[place] = str(user[member]).encode()


def set_password(name, password, shadow):
    if line := line_of(name, shadow):
        line[1] = password.encode()
    else:
        shadow.append(a_line(name, password, "", 0, 99999, 7, "", "", ""))


def join(name, group, lines):
    line = line_of(group, lines)
    check(line, f"fault 6 NoAccount {group}")
    if name.encode() not in line[3].split(b","):
        line[3] += (b"," if line[3] else b"") + name.encode()


def make_directory(tree, path, uid, gid):
    check(len(path.encode()) <= 4096, "fault 12 TreeTooLarge")
    for place in [place for place, character in enumerate(path) if character == "/" and place] + [len(path)]:
        one = path[:place]
        made = Node("dir", 0o700, uid, gid, None) if one == path else Node("dir", 0o755, 0, 0, None)
        check(tree.setdefault(one, made).kind == "dir", f"fault 3 NotADir {one}")


def make_home(tree, number_of_line, line, keys):
    try:
        path = path_of(line[5].decode())
    except UnicodeDecodeError:
        path = None
    check(path, f"fault 9 BadLine /etc/passwd {number_of_line}")
    owners = int(line[2]), int(line[3])
    make_directory(tree, path, *owners)
    if keys:
        path = path.rstrip("/") + "/.ssh"
        make_directory(tree, path, *owners)
        path += "/authorized_keys"
        check(len(path.encode()) <= 4096, "fault 12 TreeTooLarge")
        old = tree.get(path, Node("file", 0o600, *owners, b""))
        check(old.kind == "file", f"fault 4 NotAFile {path}")
        start = old.data if old.data[-1:] in (b"", b"\n") else old.data + b"\n"
        tree[path] = old._replace(data=start + b"".join(one.encode() + b"\n" for one in keys))


def do_users(tree, users):
    passwd, group, shadow = files = [read_lines(tree, file) for file in FIELDS]
    new = set()
    for name, user in users.items():
        line = line_of(name, passwd)
        if line:
            change_user(line, user, passwd)
        else:
            new.add(name)
            add_user(name, user, passwd, group)
        if name in new or "password" in user:
            set_password(name, user.get("password", "!"), shadow)
        for joined in user.get("groups", []):
            join(name, joined, group)
    for file, lines in zip(FIELDS, files):
        write_lines(tree, file, lines)
    for name, user in users.items():
        keys = ([user["key"]] if "key" in user else []) + user.get("keys", [])
        if name in new or keys:
            line = line_of(name, passwd)
            make_home(tree, [one is line for one in passwd].index(True) + 1, line, keys)


def run(stage, options, tree):
    """The answer, and the tree after the stage or None."""
    tree = dict(tree)
    try:
        (do_groups if stage == "groups" else do_users)(tree, read_options(stage, options))
    except Fault as fault:
        return str(fault), None
    return "ok", tree
