"""Writes the hash vectors that the program crates/samples runs, one file for each function.

    python3 tools/make_vectors.py            # writes crates/samples/data/*.vectors
    python3 tools/make_vectors.py --check    # writes nothing; says whether the files are the same

Where the vectors are from:

- SHA3-256, the first five: NIST's example values for FIPS 202 (the messages of 0, 24, 448 and 896 bits of the Secure
  Hash Standard's examples, and the 1600-bit one of 200 bytes 0xa3). Their digests are written out below as published.
  NIST's messages of 5, 30, 1605 and 1630 bits are not whole bytes.
- BLAKE2b-256, the first: the self-test of RFC 7693's Appendix E, a hash of 32 bytes without a key over the digests that
  the appendix lists, 1,968 bytes; its result is written out below as published. The message is made by the appendix's
  recipe, with hashlib's hashes. The RFC publishes "abc" for BLAKE2b-512 only, so the next two are what `b2sum -l 256`
  prints.
- all others: Python's hashlib (OpenSSL's SHA-3, and the BLAKE2 authors' reference code), which shares nothing with
  ours.

A file is: the number of the function (1 byte) and `vectors` (7 bytes), the count of vectors (8 bytes), and the vectors.
A vector is: how its message is given (1 byte: 0, its bytes follow; 1, it is made by the rule), the message's length
(8 bytes), its bytes where they follow, and the digest (32 bytes). Numbers are little-endian.
"""

import hashlib
import sys
from pathlib import Path

DATA = Path(__file__).resolve().parent.parent / "crates" / "samples" / "data"

SHA3_PUBLISHED = [
    (b"", "a7ffc6f8bf1ed76651c14756a061d662f580ff4de43b49fa82d80a4b80f8434a"),
    (b"abc", "3a985da74fe225b2045c172d6bd390bd855f086e3e9d525b46bfe24511431532"),
    (
        b"abcdbcdecdefdefgefghfghighijhijkijkljklmklmnlmnomnopnopq",
        "41c0dba2a9d6240849100376a8235e2c82e1b9998a999e21db32dd97496d3376",
    ),
    (
        b"abcdefghbcdefghicdefghijdefghijkefghijklfghijklmghijklmnhijklmnoijklmnopjklmnopqklmnopqrlmnopqrsmnopqrstnopqrstu",
        "916f6061fe879741ca6469b43971dfdb28b1a32dc36cb3254e812be27aad1d18",
    ),
    (b"\xa3" * 200, "79f38adec5c20307a98ef76e8324afbfd46cfd81b22e3973c65fa1bd9de31787"),
]

# RFC 7693, Appendix E: the result of `blake2b_selftest`, and the lengths of its digests and of its inputs.
SELF_TEST = "c23a7800d98123bd10f506c61e29da5603d763b8bbad2e737f5e765a7bccd475"
SELF_TEST_DIGESTS = [20, 32, 48, 64]
SELF_TEST_INPUTS = [0, 3, 128, 129, 255, 1024]

BLAKE2B_PRINTED = [
    (b"", "0e5751c026e543b2e8ab2eb06099daa1d1e5df47778f7787faab45cdf12fe3a8"),
    (b"abc", "bddd813c634239723171ef3fee98579b94964e3bb1cb3e427262c8c068d52319"),
]

# Every length to 300 passes both hashes' block ends (136 and 128) twice; then around more of them.
LENGTHS = [*range(301), *(near + d for near in (1024, 65536) for d in range(-2, 3))]

# The edges of a value: of a byte, of 32 bits, of an integer that JavaScript holds, of all coins, of 64 bits.
VALUES = [0, 1, 255, 256, 2**32 - 1, 2**32, 2**53 - 1, 2**53, 2_040_000_000_000_000, 2**63, 2**64 - 1]
NONCES = [bytes(32), b"\xff" * 32, bytes(range(32))]


def sha3_256(message):
    return hashlib.sha3_256(message).digest()


def blake2b_256(message):
    return hashlib.blake2b(message, digest_size=32).digest()


def ruled(length):
    """The message that the rule makes."""
    return bytes((i * 131 + length * 29) % 251 for i in range(length))


def selftest_seq(length):
    """The appendix's deterministic sequence, whose seed is its length wherever the self-test calls for one."""
    a, b = 0xDEAD4BAD * length % 2**32, 1
    sequence = bytearray()
    for _ in range(length):
        a, b = b, (a + b) % 2**32
        sequence.append(b >> 24)
    return bytes(sequence)


def self_test_message():
    """What the self-test hashes last: of each length of a digest and of an input the digest without a key, then that
    with a key."""
    digests = []
    for size in SELF_TEST_DIGESTS:
        for length in SELF_TEST_INPUTS:
            message = selftest_seq(length)
            digests.append(hashlib.blake2b(message, digest_size=size).digest())
            digests.append(hashlib.blake2b(message, digest_size=size, key=selftest_seq(size)).digest())
    return b"".join(digests)


def number(n):
    return n.to_bytes(8, "little")


def given(message, digest):
    return b"\0" + number(len(message)) + message + digest


def made(length, digest):
    return b"\1" + number(length) + digest


def written_out(vectors, function):
    for message, digest in vectors:
        assert function(message).hex() == digest, message
        yield given(message, bytes.fromhex(digest))


def by_rule(function):
    return [made(length, function(ruled(length))) for length in LENGTHS]


def values_and_nonces():
    for value in VALUES:
        for nonce in NONCES:
            yield number(value) + nonce
    for k in range(24):
        yield hashlib.sha256(b"value %d" % k).digest()[:8] + hashlib.sha256(b"nonce %d" % k).digest()


def file_of(function, vectors):
    return bytes([function]) + b"vectors" + number(len(vectors)) + b"".join(vectors)


def files():
    blake2b_first = [(self_test_message(), SELF_TEST), *BLAKE2B_PRINTED]
    return {
        "sha3_256.vectors": file_of(1, [*written_out(SHA3_PUBLISHED, sha3_256), *by_rule(sha3_256)]),
        "blake2b_256.vectors": file_of(2, [*written_out(blake2b_first, blake2b_256), *by_rule(blake2b_256)]),
        "value_nonce.vectors": file_of(3, [given(m, blake2b_256(m)) for m in values_and_nonces()]),
    }


def main(words):
    if words not in ([], ["--check"]):
        sys.exit(__doc__)
    differing = 0
    for name, content in files().items():
        path = DATA / name
        if not words:
            path.write_bytes(content)
        elif not path.exists() or path.read_bytes() != content:
            differing += 1
            print(f"{path}: differs")
    return 1 if differing else 0


if __name__ == "__main__":
    sys.exit(main(sys.argv[1:]))
