#!/usr/bin/env python3
"""Brings this repository's own definitions and lemmas to snake case: `bucket-count` becomes `bucket_count`.

usage: python3 tools/respell.py [FOLDER]      FOLDER is a checkout (this one by default), after the kit's port.py

Only names that specs/ and proofs/ define are turned, and in src/ only where contracts cite them. Names from src/, names that
the checker makes, names of the library, strings, inputs and outputs stay.
"""

import os
import re
import sys
from collections import Counter

DEFINED = re.compile(r"^\s*(?:(?:pub|abbrev|unfoldable) )*([^\s:(){}]+(?: [^\s:(){}]+)*) : (.*)$")
TYPE = re.compile(r"^\s*(?:pub )?(?:record|data) (\S+)")
WORD = re.compile(r"(?<!\bc\.)(?<![\w'◌-])[\w'◌]+(?:-[\w'◌]+)*")  # after `c.` stands a name that the checker makes
CONTRACT = re.compile(r"^\s*(?:pub )?(?:ghost|requires|ensures)\b")

# Names that would fall together with a field or a parameter of src/.
OTHERWISE = {"bucket-size": "bucket_size_of"}

# Words of the older library inside names.
OLDER = {"getD": "get_or", "putMid": "put_mid"}


def files(root, ending, folders):
    for crate in sorted(os.listdir(os.path.join(root, "crates"))):
        for folder in folders:
            for at, below, names in os.walk(os.path.join(root, "crates", crate, folder)):
                below.sort()
                for name in sorted(names):
                    if name.endswith(ending):
                        yield os.path.join(at, name)


def read(path):
    with open(path, encoding="utf-8") as f:
        return f.read()


def defined(root):
    own = set()
    for path in files(root, ".antt", ["specs", "proofs"]):
        for line in read(path).splitlines():
            if line.lstrip().startswith(("--", "use ", "let ")):
                continue
            found = TYPE.match(line)
            if found:
                own.add(found.group(1))
                continue
            found = DEFINED.match(line)
            if found and not found.group(2).startswith("goal."):
                own.update(found.group(1).split())
    return {name for name in own if WORD.fullmatch(name)}


def respelled(name):
    for old, new in OLDER.items():
        name = re.sub(rf"{old}(?=[-']|$)", new, name)
    return OTHERWISE.get(name, name.replace("-", "_"))


def main(argv):
    root = argv[0] if argv else os.path.join(os.path.dirname(os.path.realpath(__file__)), "..")
    own = defined(root)
    names = {name: respelled(name) for name in own if respelled(name) != name}
    meet = Counter([*names.values(), *(own - names.keys())])
    together = sorted(name for name, times in meet.items() if times > 1)
    if together:
        print("respell: names that fall together: " + ", ".join(together), file=sys.stderr)
        return 1
    turn = lambda text: WORD.sub(lambda m: names.get(m.group(0), m.group(0)), text)
    changed = 0
    for path in [*files(root, ".antt", ["specs", "proofs"]), *files(root, ".rt", ["src"])]:
        before = read(path)
        lines = before.splitlines(keepends=True)
        after = "".join(turn(l) if path.endswith(".antt") or CONTRACT.match(l) else l for l in lines)
        if after != before:
            changed += 1
            with open(path, "w", encoding="utf-8") as f:
                f.write(after)
    print(f"respell: {len(names)} names, {changed} files")
    return 0


if __name__ == "__main__":
    raise SystemExit(main(sys.argv[1:]))
