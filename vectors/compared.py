"""What the comparisons over case files have in common."""

import re
import subprocess


def all_agree(program, folder, files, kinds, count):
    """Whether the program, osb_cases, finds no difference in these files of so many cases. Prints what it says, and how
    many of each kind there were."""
    found = subprocess.run([program, *files], cwd=folder, capture_output=True)
    print(found.stdout.decode(errors="replace"), end="")
    print(found.stderr.decode(errors="replace"), end="")
    print(", ".join(f"{number} {kind}" for kind, number in sorted(kinds.items())))
    ended = re.search(rb"^([0-9]+) cases, 0 differ$", found.stderr, re.MULTILINE)
    return found.returncode == 0 and ended is not None and int(ended[1]) == count
