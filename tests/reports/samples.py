"""The folders of samples/, which the front door can be tried on: writes them, or with --check holds them to what it
would write.

    python3 tests/reports/samples.py [--check]
"""

import sys
from pathlib import Path

from formats import (
    BID_CONTENT,
    FINALIZE,
    NO_COINS,
    OPEN,
    OTHER_HASH,
    OWNER,
    REGISTER,
    REVEAL_CONTENT,
    TRANSFER,
    TRANSFER_CONTENT,
    compact,
    covenant,
    key_of,
    named,
    output,
    record,
    spending,
)

FOLDER = Path(__file__).resolve().parents[2] / "samples"


def pair(line, spent, created):
    """Sheets in which each spent output is the coin of an input, in order."""
    tx, coins = spending(spent, created)
    return {"tx.sheet": tx, "coins.sheet": coins, "line.txt": line.encode() + b"\n"}


def state(line, key, content):
    return {"state.bin": key + content, "line.txt": line.encode() + b"\n"}


SAMPLES = {
    "links-empty": pair("links inputs=0 linked=0 names=0", [], []),
    "links-unpaired": {
        "tx.sheet": bytes.fromhex("10000040") + bytes(10) + bytes.fromhex("0400"),
        "coins.sheet": NO_COINS,
        "line.txt": b"refused 26 at 0\n",
    },
    "links-bid-to-reveal": pair("links inputs=1 linked=1 names=1", [output(BID_CONTENT)], [output(REVEAL_CONTENT)]),
    "links-transfer-to-finalize": pair(
        "links inputs=2 linked=2 names=2",
        [output(TRANSFER_CONTENT), output(named(REGISTER))],
        [output(named(FINALIZE), version=5, hash=OTHER_HASH), output(named(TRANSFER, b"\x00", OTHER_HASH))],
    ),
    "links-register-to-open-unequal": pair(
        "refused 22 at 0", [output(named(REGISTER))], [output(covenant(OPEN), value=999)]
    ),
    "links-register-to-open-equal": pair("refused 14 at 0", [output(named(REGISTER))], [output(covenant(OPEN))]),
    "name-null": state("state null name=0 bytes=13", bytes(32), bytes(13)),
    "name-held": state(
        "state held name=5 bytes=54",
        key_of(b"alice"),
        record(name=b"alice", height=1, owner=OWNER, value=compact(1000)),
    ),
    "name-free": state("state free name=5 bytes=18", key_of(b"alice"), record(name=b"alice", height=1)),
    "name-height-without-name": state("refused 6", key_of(b""), record(height=1)),
    "name-unknown-bit": state("refused 7", key_of(b"alice"), record(name=b"alice", height=1, flags=1 << 10)),
}


def main(check):
    for name, files in SAMPLES.items():
        for file, content in files.items():
            path = FOLDER / name / file
            if check and (not path.is_file() or path.read_bytes() != content):
                print(f"{path.relative_to(FOLDER.parent)} is not what {Path(__file__).name} writes")
                return 1
            if not check:
                path.parent.mkdir(parents=True, exist_ok=True)
                path.write_bytes(content)
    return 0


if __name__ == "__main__":
    sys.exit(main("--check" in sys.argv[1:]))
