"""Builds what document 01 lays out: compact sizes, covenants, name states and their keys, transaction and coin sheets.
The reports' tests, the folders of samples/ and the first inputs of fuzz/ are made of these.

A builder lays out what it is given, right or wrong, so that bytes that must be refused are built as easily as others.
"""

import hashlib

# covenant kinds by name
NONE, CLAIM, OPEN, BID, REVEAL, REDEEM, REGISTER, UPDATE, RENEW, TRANSFER, FINALIZE, REVOKE = range(12)

# the sides of a sheet's head
TRANSACTION, COINS = 0, 1

# the bits of a state's bitmap: the fields that have bytes, and those above them
FIELDS = ["owner", "value", "highest", "transfer", "revoked", "claimed", "renewals"]
REGISTERED, EXPIRED, WEAK = 1 << 7, 1 << 8, 1 << 9

NULL_INDEX = 2**32 - 1


def little(value, size):
    return value.to_bytes(size, "little")


def big(value, size):
    return value.to_bytes(size, "big")


def compact(value):
    """A compact size in its shortest form."""
    if value < 253:
        return little(value, 1)
    if value < 2**16:
        return b"\xfd" + little(value, 2)
    if value < 2**32:
        return b"\xfe" + little(value, 4)
    return b"\xff" + little(value, 8)


def sha3(message):
    return hashlib.sha3_256(message).digest()


def key_of(name):
    return sha3(name)


def commitment(value, nonce):
    """The blind commitment to a value under a nonce."""
    return hashlib.blake2b(little(value, 8) + nonce, digest_size=32).digest()


def covenant(kind, *items):
    return bytes([kind]) + compact(len(items)) + b"".join(compact(len(item)) + item for item in items)


# ---- name states


def owner(hash, index):
    """The outpoint of an owner, as a state has it."""
    return hash + compact(index)


def record(name=b"", resource=b"", height=0, renewal=0, flags=0, **present):
    """A state's record. A present field is given by its bytes, in whatever form; its bit is set, and `flags` are the
    other bits."""
    bits = flags | sum(1 << FIELDS.index(field) for field in present)
    texts = little(len(name), 1) + name + little(len(resource), 2) + resource
    fields = b"".join(present[field] for field in FIELDS if field in present)
    return texts + little(height, 4) + little(renewal, 4) + little(bits, 2) + fields


# ---- sheets: bits packed, the most significant first


def head(side, first, outputs, version=1, spare=0):
    """The counts are of inputs and outputs, or of coins and none."""
    return big(version << 28 | side << 26 | first << 16 | outputs << 6 | spare, 4)


def outpoint(hash, index):
    return hash + big(index, 4)


def numbered(number, index=0):
    """The outpoint whose hash is a number: one that is not null, another for each number."""
    return outpoint(big(number, 32), index)


NULL_OUTPOINT = outpoint(bytes(32), NULL_INDEX)


def output(content, value=1000, version=0, hash=b"\x11" * 20, spare=0):
    """`content` is the covenant's bytes."""
    return big(value, 8) + bytes([version, spare << 6 | len(hash)]) + hash + content


def transaction(inputs, outputs):
    return head(TRANSACTION, len(inputs), len(outputs)) + b"".join(inputs) + b"".join(outputs)


def coins(spent):
    """Each coin is an outpoint and an output."""
    return head(COINS, len(spent), 0) + b"".join(place + held for place, held in spent)


NO_COINS = coins([])


def spending(spent, created, places=None):
    """Both sheets of a transaction: each spent output is the coin of an input of its own, in the same order; `created`
    are the outputs."""
    places = places or [numbered(number + 1) for number in range(len(spent))]
    return transaction(places, created), coins(list(zip(places, spent)))


# ---- content that tests and samples share

NAME = b"\x22" * 32
START = little(700, 4)
NONCE = b"\x33" * 32
OTHER_HASH = b"\x44" * 20
OWNER = owner(b"\xab" * 32, 7)


def named(kind, *more):
    """A covenant with its name and start, and what comes after them."""
    return covenant(kind, NAME, START, *more)


BID_CONTENT = named(BID, b"name", commitment(1000, NONCE))
REVEAL_CONTENT = named(REVEAL, NONCE)
TRANSFER_CONTENT = named(TRANSFER, b"\x05", OTHER_HASH)
