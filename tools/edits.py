#!/usr/bin/env python3
"""Sees in what `rt ci` said that every must-fail edit of the repository was refused for a fact, and that none was bad.

    tools/edits.py LOG

`rt ci` passes where an edit is bad, that is where it could not be applied or read, so nothing is known of the contract; and where an edit is refused only because
a proof names what the edit took away. Here both fail. Where the search gives up at a limit the fact is not named either: such edits are listed, since an answer or a
law is missing there.
"""
import pathlib
import re
import sys

ROOT = pathlib.Path(__file__).resolve().parent.parent
OK = re.compile(r"rt: ok\b.*?\bmust-fail edits: (\d+) refused(.*)")
SAID = re.compile(r"rt: must-fail (\w+)/(\S+)\.edit: (.*)")
REFUSED = re.compile(r"refused, as it must be(?:: |$)")
LIMIT = re.compile(r"\bgave up\b")


def main():
    said, ok = {}, None
    for line in pathlib.Path(sys.argv[1]).read_text(encoding="utf-8", errors="replace").splitlines():
        ok = OK.match(line) or ok
        if found := SAID.match(line):
            said[f"{found[1]}/{found[2]}"] = found[3]
    edits = sorted(f"{path.parts[-3]}/{path.stem}" for path in ROOT.glob("crates/*/must-fail/*.edit"))
    faults = [f"{name}: {told[:200]}" for name in edits if not REFUSED.match(told := said.get(name, "not tried"))]
    if not ok or int(ok[1]) != len(edits) or re.search(r",? [1-9]\d* bad", ok[2]):
        faults.append(f"the repository has {len(edits)} edits, and rt says: {ok[0] if ok else 'no line of what was refused'}")
    if faults:
        sys.exit("\n".join([*faults, f"edits: {len(edits)} must be refused for a fact, and are not"]))
    limited = [name for name in edits if LIMIT.search(said[name])]
    print(f"edits: {len(edits)} refused, none bad; by a limit of the search {len(limited)}: {' '.join(limited)}")


main()
