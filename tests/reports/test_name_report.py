"""The name report on files of every class and refusal that a record can reach. 2 cannot be reached: no length in a
record is near 2^64."""

import unittest

from formats import EXPIRED, NULL_INDEX, OWNER, REGISTERED, WEAK, compact, key_of, little, owner, record
from programs import FOLDER, ProgramCase

ANY_KEY = bytes(range(32))
NULL_OWNER = owner(bytes(32), NULL_INDEX)


class NameReport(ProgramCase):
    program = "name_report"

    def assert_says(self, line, key, content):
        self.assert_line(line, {"state.bin": key + content})

    def assert_named(self, line, **fields):
        """The record of the name alice, height 1, under the name's key."""
        self.assert_says(line, key_of(b"alice"), record(name=b"alice", height=1, **fields))

    # ---- accepted

    def test_the_document_s_line(self):
        self.assert_line("state null name=0 bytes=13", {"state.bin": bytes(45)})

    def test_without_standard_input(self):
        self.assert_line_without_input("state null name=0 bytes=13", {"state.bin": bytes(45)})

    def test_null_with_any_name_under_any_key(self):
        self.assert_says("state null name=1 bytes=14", ANY_KEY, bytes.fromhex("0141") + bytes(12))
        self.assert_says("state null name=5 bytes=18", ANY_KEY, record(name=b"alice"))
        self.assert_says("state null name=4 bytes=17", ANY_KEY, record(name=b"test"))
        self.assert_says("state null name=63 bytes=76", bytes(32), record(name=b"\xff" * 63))

    def test_free(self):
        self.assert_named("state free name=5 bytes=18")
        self.assert_named("state free name=5 bytes=21", resource=b"abc")
        self.assert_named("state free name=5 bytes=19", value=compact(1))
        self.assert_named("state free name=5 bytes=27", highest=compact(2**53 - 1))
        self.assert_named("state free name=5 bytes=22", transfer=little(1, 4))
        self.assert_named("state free name=5 bytes=26", revoked=little(1, 4), claimed=little(2**32 - 1, 4))
        self.assert_named("state free name=5 bytes=23", renewals=compact(2**32 - 1))

    def test_held(self):
        self.assert_named("state held name=5 bytes=51", owner=OWNER)
        self.assert_named("state held name=5 bytes=54", owner=OWNER, value=compact(1000))
        self.assert_says("state held name=1 bytes=47", key_of(b"a"), record(name=b"a", owner=OWNER))

    def test_an_owner_is_null_only_by_hash_and_index(self):
        self.assert_named("state held name=5 bytes=55", owner=owner(b"\x01" + bytes(31), 2**32 - 1))
        self.assert_named("state held name=5 bytes=51", owner=owner(bytes(32), 0))
        self.assert_named("state held name=5 bytes=55", owner=owner(bytes(32), 2**32 - 2))

    def test_bits_7_to_9_have_no_bytes(self):
        for flags in (REGISTERED, EXPIRED, WEAK, REGISTERED | EXPIRED | WEAK):
            with self.subTest(flags=flags):
                self.assert_named("state free name=5 bytes=18", flags=flags)
                self.assert_named("state held name=5 bytes=51", flags=flags, owner=OWNER)
                self.assert_says("state free name=5 bytes=18", key_of(b"alice"), record(name=b"alice", flags=flags))

    def test_the_longest_record(self):
        name = b"a" * 63
        longest = record(
            name=name,
            resource=b"\x00" * 512,
            height=2**32 - 1,
            renewal=2**32 - 1,
            flags=REGISTERED | EXPIRED | WEAK,
            owner=owner(b"\xff" * 32, 2**32 - 1),
            value=compact(2**53 - 1),
            highest=compact(2**53 - 1),
            transfer=little(2**32 - 1, 4),
            revoked=little(2**32 - 1, 4),
            claimed=little(2**32 - 1, 4),
            renewals=compact(2**32 - 1),
        )
        self.assert_says("state held name=63 bytes=660", key_of(name), longest)

    # ---- written

    def test_a_failed_write(self):
        self.assert_a_failed_write_is_told()

    # ---- refused

    def test_1_no_file_or_no_whole_key(self):
        self.assert_line("refused 1", {})
        self.assert_line("refused 1", {"state.bin": b""})
        self.assert_line("refused 1", {"state.bin": bytes(31)})

    def test_1_a_file_that_cannot_be_read_to_its_end(self):
        self.assert_line("refused 1", {"state.bin": FOLDER})
        self.assert_line_on_failing_reads("refused 1", {"state.bin": bytes(45)})

    def test_1_cut_off(self):
        whole = record(
            name=b"alice",
            resource=b"abc",
            height=1,
            owner=OWNER,
            value=compact(2**40),
            transfer=little(3, 4),
            renewals=compact(300),
        )
        self.assert_says("state held name=5 bytes=70", key_of(b"alice"), whole)
        for size in range(len(whole)):
            with self.subTest(size=size):
                self.assert_says("refused 1", key_of(b"alice"), whole[:size])

    def test_3_trailing(self):
        self.assert_says("refused 3", ANY_KEY, bytes(14))
        self.assert_says("refused 3", ANY_KEY, bytes(668))
        self.assert_says("refused 3", key_of(b"alice"), record(name=b"alice", height=1, owner=OWNER) + b"\x00")

    def test_3_before_6_9_and_8(self):
        self.assert_says("refused 3", ANY_KEY, record(height=1) + b"\x00")
        self.assert_says("refused 3", ANY_KEY, record(name=b"alice", height=1) + b"\x00")
        self.assert_says("refused 3", ANY_KEY, record(value=compact(0)) + b"\x00")

    def test_4_a_longer_form_than_needed(self):
        self.assert_named("refused 4", owner=b"\xab" * 32 + bytes.fromhex("fdfc00"))
        self.assert_named("refused 4", value=bytes.fromhex("fd0000"))
        self.assert_named("refused 4", highest=bytes.fromhex("feffff0000"))
        self.assert_named("refused 4", renewals=bytes.fromhex("ffffffffff00000000"))

    def test_5_over_668(self):
        self.assert_says("refused 5", ANY_KEY, bytes(669))
        self.assert_says("refused 5", ANY_KEY, b"\xff" * 669)
        self.assert_says("refused 5", ANY_KEY, bytes(5000))

    def test_6_no_name(self):
        self.assert_says("refused 6", key_of(b""), record(height=1))
        self.assert_says("refused 6", key_of(b""), record(flags=REGISTERED))
        for name in (
            b"example",
            b"invalid",
            b"local",
            b"localhost",
            b"test",
            b"Alice",
            b"-a",
            b"a-",
            b"_a",
            b"a_",
            b"a.b",
            b"a b",
            b"\x80",
        ):
            with self.subTest(name=name):
                self.assert_says("refused 6", key_of(name), record(name=name, renewal=1))

    def test_7_name_over_63(self):
        self.assert_says("refused 7", ANY_KEY, b"\x40" + b"a" * 64 + bytes(12))
        self.assert_says("refused 7", ANY_KEY, b"\xff")

    def test_7_resource_over_512(self):
        self.assert_says("refused 7", ANY_KEY, record(name=b"alice", resource=bytes(513)))
        self.assert_says("refused 7", ANY_KEY, bytes.fromhex("000102"))

    def test_7_unknown_bits(self):
        self.assert_named("refused 7", flags=1 << 10)
        self.assert_says("refused 7", ANY_KEY, record(flags=1 << 10))
        self.assert_says("refused 7", ANY_KEY, record(flags=1 << 15))

    def test_7_owner_index(self):
        self.assert_named("refused 7", owner=owner(b"\xab" * 32, 2**32))

    def test_7_renewal_count(self):
        self.assert_named("refused 7", renewals=compact(2**32))

    def test_7_safe_integer(self):
        self.assert_named("refused 7", value=compact(2**53))
        self.assert_named("refused 7", highest=compact(2**53))
        self.assert_named("refused 7", value=compact(2**64 - 1))

    def test_8_a_present_bit_with_a_zero_value(self):
        self.assert_says("refused 8", ANY_KEY, bytes(11) + bytes.fromhex("020000"))
        for field, zero in (
            ("value", compact(0)),
            ("highest", compact(0)),
            ("transfer", little(0, 4)),
            ("revoked", little(0, 4)),
            ("claimed", little(0, 4)),
            ("renewals", compact(0)),
        ):
            with self.subTest(field=field):
                self.assert_named("refused 8", **{field: zero})
                self.assert_says("refused 8", ANY_KEY, record(**{field: zero}))

    def test_8_an_owner_bit_with_the_null_outpoint(self):
        self.assert_named("refused 8", owner=NULL_OWNER)
        self.assert_says("refused 8", ANY_KEY, record(owner=NULL_OWNER))

    def test_9_another_key(self):
        self.assert_says("refused 9", ANY_KEY, record(name=b"alice", height=1))
        self.assert_says("refused 9", key_of(b"alice"), record(name=b"alicf", height=1))
        self.assert_says("refused 9", ANY_KEY, record(name=b"alice", flags=WEAK))
        self.assert_says("refused 9", key_of(b"alice")[:31] + b"\x00", record(name=b"alice", height=1))

    def test_9_and_6_before_8(self):
        self.assert_says("refused 9", ANY_KEY, record(name=b"alice", height=1, value=compact(0)))
        self.assert_says("refused 6", ANY_KEY, record(height=1, value=compact(0)))


if __name__ == "__main__":
    unittest.main()
