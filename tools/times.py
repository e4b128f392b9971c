"""Where a check's seconds go: checks a crate with one job, and prints the seconds of each function and law file.

    rm -rf crates/CRATE/out/incremental; python3 tools/times.py [--most N] CRATE

The prover writes a file for each module that it has checked, so what passed between two of them went into the later
one's; what passed before the first is the prover's own start. Most of a function's seconds are its `Lts`, which grows
faster than the function. Only what this run checked counts: `rt check` goes on from what an earlier check kept, here or
in another checkout on the machine, and how much that was is told.
"""

import argparse
import re
import subprocess
import sys
import time
from collections import Counter

from repository import HOME

# `Rattle-CRATE-proofs.PATH.Part.oantt`, and `.decls.oantt` beside it; of a function's contract
# `Rattle-CRATE-specs.contracts.PATH.oantt`; and `Rattle-CRATE.proofs.PATH.oantt` is what other crates see. A part that
# rattle makes of a function has a capital.
MODULE = re.compile(r"^Rattle-\w+(?:-\w+)?\.(?:proofs\.|specs\.)?(?:contracts\.)?(?P<path>.+?)(?:\.decls)?\.oantt$")


def owner_of(name):
    """The function or file whose seconds a module's are, and the module's part of it."""
    match = MODULE.match(name)
    path = (match["path"] if match else name).split(".")
    parts = []
    while len(path) > 1 and path[-1][:1].isupper():
        parts.insert(0, path.pop())
    return ".".join(path), ".".join(parts)


def seconds_of(written, start):
    """From (when, file name) of each file, the seconds by owner and by part of those that were written since the start,
    and how many were there before."""
    owners, parts = Counter(), Counter()
    before, known = None, 0
    for when, name in sorted(written):
        if when < start:
            known += 1
            continue
        owner, part = owner_of(name)
        passed = when - before if before is not None else 0.0
        owners[owner] += passed
        parts[part or "files"] += passed
        before = when
    return owners, parts, known


def main(arguments):
    parser = argparse.ArgumentParser(description=__doc__.splitlines()[0])
    parser.add_argument("--most", type=int, default=20)
    parser.add_argument("crate")
    chosen = parser.parse_args(arguments)
    folder = HOME / "crates" / chosen.crate
    start = time.time()
    if subprocess.run(["rt", "check", "--jobs", "1"], cwd=folder, stdout=subprocess.DEVNULL).returncode != 0:
        print(f"{chosen.crate} is not proved")
    written = [(path.stat().st_mtime_ns / 1e9, path.name) for path in (folder / "out/incremental").rglob("*.oantt")]
    owners, parts, known = seconds_of(written, start)
    print(
        f"{sum(owners.values()):.1f} s: " + ", ".join(f"{part} {seconds:.1f}" for part, seconds in parts.most_common(5))
    )
    for owner, seconds in owners.most_common(chosen.most):
        print(f"{seconds:7.2f} {owner}")
    if known:
        print(f"{known} of {len(written)} modules were known before, and have no seconds here")
    return 0


if __name__ == "__main__":
    sys.exit(main(sys.argv[1:]))
