"""The link report on pairs of sheets: every row of the link table, every refusal that two sheets can reach, and what is
asked of the files.
6 to 9 are refusals of names and states, 29 and 30 of writes; no sheet reaches them."""

import unittest

from formats import (
    BID,
    BID_CONTENT,
    CLAIM,
    COINS,
    FINALIZE,
    NAME,
    NO_COINS,
    NONCE,
    NONE,
    NULL_OUTPOINT,
    OPEN,
    OTHER_HASH,
    REDEEM,
    REGISTER,
    RENEW,
    REVEAL,
    REVEAL_CONTENT,
    REVOKE,
    START,
    TRANSACTION,
    TRANSFER,
    TRANSFER_CONTENT,
    UPDATE,
    coins,
    commitment,
    covenant,
    head,
    named,
    numbered,
    output,
    spending,
    transaction,
)
from programs import FOLDER, ProgramCase


class LinkReport(ProgramCase):
    program = "link_report"

    def assert_sheets(self, line, tx, spent):
        self.assert_line(line, {"tx.sheet": tx, "coins.sheet": spent})

    def assert_links(self, line, spent, created):
        """Each spent output is a coin with an input of its own, in the same order; `created` are the outputs."""
        self.assert_sheets(line, *spending(spent, created))

    def assert_pair(self, line, spent, created):
        """One input, and its partner."""
        self.assert_links(line, [spent], [created])

    # ---- the document's lines

    def test_the_empty_pair(self):
        self.assert_sheets("links inputs=0 linked=0 names=0", bytes.fromhex("10000000"), bytes.fromhex("14000000"))

    def test_the_unpaired_reveal(self):
        self.assert_sheets(
            "refused 26 at 0", bytes.fromhex("10000040") + bytes(10) + bytes.fromhex("0400"), bytes.fromhex("14000000")
        )

    # ---- written

    def test_a_failed_write(self):
        self.assert_a_failed_write_is_told()

    # ---- accepted: each row of the table

    def test_none_open_and_redeem_without_partner(self):
        self.assert_links("links inputs=1 linked=0 names=0", [output(covenant(NONE))], [])
        self.assert_links("links inputs=1 linked=0 names=1", [output(covenant(OPEN))], [])
        self.assert_links("links inputs=1 linked=0 names=1", [output(covenant(REDEEM))], [])

    def test_none_open_and_redeem_with_partner(self):
        for created in (NONE, OPEN, BID):
            with self.subTest(created=created):
                partner = output(covenant(created), value=5, hash=OTHER_HASH)
                self.assert_pair("links inputs=1 linked=0 names=0", output(covenant(NONE)), partner)
                self.assert_pair("links inputs=1 linked=0 names=1", output(covenant(OPEN)), partner)
                self.assert_pair("links inputs=1 linked=0 names=1", output(covenant(REDEEM)), partner)

    def test_bid_to_reveal(self):
        self.assert_pair("links inputs=1 linked=1 names=1", output(BID_CONTENT), output(REVEAL_CONTENT))
        lower = named(BID, b"", commitment(999, NONCE))
        self.assert_pair(
            "links inputs=1 linked=1 names=1", output(lower), output(REVEAL_CONTENT, value=999, hash=OTHER_HASH)
        )

    def test_claim_to_register(self):
        self.assert_pair("links inputs=1 linked=1 names=1", output(named(CLAIM)), output(named(REGISTER), value=7))

    def test_reveal_to_register_and_redeem(self):
        self.assert_pair("links inputs=1 linked=1 names=1", output(named(REVEAL)), output(named(REGISTER), value=7))
        self.assert_pair(
            "links inputs=1 linked=1 names=1", output(named(REVEAL)), output(named(REDEEM), value=7, hash=OTHER_HASH)
        )

    def test_register_update_renew_and_finalize(self):
        for spent in (REGISTER, UPDATE, RENEW, FINALIZE):
            for created in (UPDATE, RENEW, TRANSFER, REVOKE):
                with self.subTest(spent=spent, created=created):
                    self.assert_pair(
                        "links inputs=1 linked=1 names=1", output(named(spent)), output(named(created, b"more"))
                    )

    def test_transfer_to_update_renew_and_revoke(self):
        for created in (UPDATE, RENEW, REVOKE):
            with self.subTest(created=created):
                self.assert_pair("links inputs=1 linked=1 names=1", output(TRANSFER_CONTENT), output(named(created)))

    def test_transfer_to_finalize(self):
        self.assert_pair(
            "links inputs=1 linked=1 names=1",
            output(TRANSFER_CONTENT),
            output(named(FINALIZE), version=5, hash=OTHER_HASH),
        )
        to_no_hash = named(TRANSFER, b"\x00", b"")
        self.assert_pair("links inputs=1 linked=1 names=1", output(to_no_hash), output(named(FINALIZE), hash=b""))

    def test_unknown_kinds(self):
        for spent in (12, 13, 128, 255):
            self.assert_links("links inputs=1 linked=0 names=0", [output(covenant(spent))], [])
            for created in (NONE, 12, 255):
                with self.subTest(spent=spent, created=created):
                    self.assert_pair(
                        "links inputs=1 linked=0 names=0", output(covenant(spent, b"any")), output(covenant(created))
                    )

    def test_outputs_past_the_inputs(self):
        for created in (NONE, CLAIM, OPEN, BID, 12, 255):
            with self.subTest(created=created):
                self.assert_links("links inputs=0 linked=0 names=0", [], [output(covenant(created))])
        self.assert_links(
            "links inputs=1 linked=0 names=0",
            [output(covenant(NONE))],
            [output(covenant(NONE)), output(covenant(CLAIM))],
        )

    def test_the_summary_counts(self):
        spent = [
            output(covenant(NONE)),
            output(BID_CONTENT),
            output(covenant(OPEN)),
            output(named(REGISTER)),
            output(covenant(200)),
            output(named(REVEAL)),
        ]
        created = [
            output(covenant(BID)),
            output(REVEAL_CONTENT),
            output(covenant(NONE)),
            output(named(UPDATE)),
            output(covenant(NONE)),
            output(named(REDEEM)),
            output(covenant(CLAIM)),
        ]
        self.assert_links("links inputs=6 linked=3 names=4", spent, created)

    def test_many(self):
        self.assert_links("links inputs=120 linked=0 names=0", [output(covenant(NONE), hash=b"")] * 120, [])
        self.assert_links(
            "links inputs=110 linked=110 names=110", [output(named(UPDATE))] * 110, [output(named(RENEW))] * 110
        )

    # ---- 10 and 11

    def test_10_coinbase(self):
        held = output(covenant(NONE))
        self.assert_sheets("refused 10", transaction([NULL_OUTPOINT], []), coins([(NULL_OUTPOINT, held)]))
        self.assert_sheets("refused 10", transaction([NULL_OUTPOINT, numbered(1)], []), NO_COINS)

    def test_10_only_by_the_first_input(self):
        held = output(covenant(NONE))
        places = [numbered(1), NULL_OUTPOINT]
        self.assert_sheets(
            "links inputs=2 linked=0 names=0", transaction(places, []), coins([(place, held) for place in places])
        )
        zero = numbered(0, 0)
        self.assert_sheets("links inputs=1 linked=0 names=0", transaction([zero], []), coins([(zero, held)]))

    def test_11_counts(self):
        held = output(covenant(NONE))
        self.assert_sheets("refused 11", transaction([numbered(1)], []), NO_COINS)
        self.assert_sheets("refused 11", transaction([], []), coins([(numbered(1), held)]))
        self.assert_sheets(
            "refused 11",
            transaction([numbered(1)], [output(named(REVEAL))]),
            coins([(numbered(9), held), (numbered(2), held)]),
        )

    # ---- 12 to 26: each with its index

    def test_12_outpoint(self):
        held = output(covenant(NONE))
        self.assert_sheets("refused 12 at 0", transaction([numbered(1)], []), coins([(numbered(2), held)]))
        self.assert_sheets("refused 12 at 0", transaction([numbered(1, 0)], []), coins([(numbered(1, 1), held)]))
        self.assert_sheets(
            "refused 12 at 1",
            transaction([numbered(1), numbered(2)], []),
            coins([(numbered(1), held), (numbered(1), held)]),
        )

    def test_12_before_the_row(self):
        self.assert_sheets(
            "refused 12 at 0", transaction([numbered(1)], []), coins([(numbered(2), output(covenant(REVOKE)))])
        )

    def test_13_no_partner(self):
        for spent in (CLAIM, BID, REVEAL, REGISTER, UPDATE, RENEW, TRANSFER, FINALIZE):
            with self.subTest(spent=spent):
                self.assert_links("refused 13 at 0", [output(named(spent))], [])
                self.assert_links(
                    "refused 13 at 1", [output(covenant(NONE)), output(named(spent))], [output(covenant(NONE))]
                )

    def test_14_none_open_and_redeem(self):
        for spent in (NONE, OPEN, REDEEM):
            for created in (CLAIM, REVEAL, REDEEM, REGISTER, UPDATE, RENEW, TRANSFER, FINALIZE, REVOKE, 12, 255):
                with self.subTest(spent=spent, created=created):
                    self.assert_pair("refused 14 at 0", output(covenant(spent)), output(covenant(created)))

    def test_14_bid(self):
        for created in (NONE, CLAIM, OPEN, BID, REDEEM, REGISTER, UPDATE, RENEW, TRANSFER, FINALIZE, REVOKE, 12):
            with self.subTest(created=created):
                self.assert_pair("refused 14 at 0", output(BID_CONTENT), output(named(created, NONCE)))

    def test_14_claim_and_reveal(self):
        for spent in (CLAIM, REVEAL):
            for created in (NONE, CLAIM, OPEN, BID, REVEAL, UPDATE, RENEW, TRANSFER, FINALIZE, REVOKE, 255):
                with self.subTest(spent=spent, created=created):
                    self.assert_pair("refused 14 at 0", output(named(spent)), output(named(created)))

    def test_14_register_update_renew_and_finalize(self):
        for spent in (REGISTER, UPDATE, RENEW, FINALIZE):
            for created in (NONE, CLAIM, OPEN, BID, REVEAL, REDEEM, REGISTER, FINALIZE, 12):
                with self.subTest(spent=spent, created=created):
                    self.assert_pair("refused 14 at 0", output(named(spent)), output(named(created)))

    def test_14_transfer(self):
        for created in (NONE, CLAIM, OPEN, BID, REVEAL, REDEEM, REGISTER, TRANSFER, 12):
            with self.subTest(created=created):
                self.assert_pair("refused 14 at 0", output(TRANSFER_CONTENT), output(named(created)))

    def test_15_spent_name(self):
        self.assert_pair("refused 15 at 0", output(covenant(REVEAL)), output(named(REGISTER)))
        self.assert_pair("refused 15 at 0", output(covenant(REVEAL, NAME[:31], START)), output(named(REGISTER)))

    def test_15_created_name(self):
        self.assert_pair("refused 15 at 0", output(named(REVEAL)), output(covenant(REGISTER)))
        self.assert_pair("refused 15 at 0", output(named(REVEAL)), output(covenant(REGISTER, NAME + b"\x22", START)))

    def test_15_spent_start(self):
        self.assert_pair("refused 15 at 0", output(covenant(REVEAL, NAME)), output(named(REGISTER)))
        self.assert_pair("refused 15 at 0", output(covenant(REVEAL, NAME, START[:3])), output(named(REGISTER)))

    def test_15_created_start(self):
        self.assert_pair("refused 15 at 0", output(named(REVEAL)), output(covenant(REGISTER, NAME)))
        self.assert_pair("refused 15 at 0", output(named(REVEAL)), output(covenant(REGISTER, NAME, START + b"\x00")))

    def test_15_reveal_nonce(self):
        self.assert_pair("refused 15 at 0", output(BID_CONTENT), output(named(REVEAL)))
        self.assert_pair("refused 15 at 0", output(BID_CONTENT), output(named(REVEAL, NONCE[:31])))

    def test_15_bid_commitment(self):
        self.assert_pair("refused 15 at 0", output(named(BID, b"name")), output(REVEAL_CONTENT))
        self.assert_pair("refused 15 at 0", output(named(BID, b"name", b"")), output(REVEAL_CONTENT))

    def test_15_transfer_version(self):
        finalized = output(named(FINALIZE), version=5, hash=OTHER_HASH)
        self.assert_pair("refused 15 at 0", output(named(TRANSFER, b"", OTHER_HASH)), finalized)
        self.assert_pair("refused 15 at 0", output(named(TRANSFER, b"\x05\x05", OTHER_HASH)), finalized)
        self.assert_pair("refused 15 at 0", output(named(TRANSFER)), finalized)

    def test_15_transfer_hash(self):
        self.assert_pair(
            "refused 15 at 0", output(named(TRANSFER, b"\x05")), output(named(FINALIZE), version=5, hash=OTHER_HASH)
        )
        self.assert_pair(
            "refused 15 at 0", output(named(TRANSFER, b"\x05")), output(named(FINALIZE), version=5, hash=b"")
        )

    def test_16_name(self):
        other = covenant(REGISTER, NAME[:31] + b"\x00", START)
        self.assert_pair("refused 16 at 0", output(named(REVEAL)), output(other))
        self.assert_pair("refused 16 at 0", output(named(CLAIM)), output(covenant(REDEEM, bytes(32), START)))
        self.assert_pair("refused 16 at 0", output(named(UPDATE)), output(covenant(RENEW, bytes(32))))

    def test_17_start(self):
        other = (701).to_bytes(4, "little")
        self.assert_pair("refused 17 at 0", output(named(REVEAL)), output(covenant(REGISTER, NAME, other)))
        self.assert_pair("refused 17 at 0", output(named(CLAIM)), output(covenant(REDEEM, NAME, other)))
        self.assert_pair("refused 17 at 0", output(BID_CONTENT), output(covenant(REVEAL, NAME, other)))
        self.assert_pair("refused 17 at 0", output(named(TRANSFER)), output(covenant(FINALIZE, NAME, other)))

    def test_18_commitment(self):
        self.assert_pair("refused 18 at 0", output(named(BID, b"", commitment(999, NONCE))), output(REVEAL_CONTENT))
        self.assert_pair("refused 18 at 0", output(BID_CONTENT), output(named(REVEAL, b"\x34" * 32)))

    def test_19_output_above_coin(self):
        above = named(BID, b"", commitment(1001, NONCE))
        self.assert_pair("refused 19 at 0", output(above), output(REVEAL_CONTENT, value=1001))
        self.assert_pair("refused 18 at 0", output(BID_CONTENT), output(REVEAL_CONTENT, value=1001))

    def test_20_claim_cannot_redeem(self):
        self.assert_pair("refused 20 at 0", output(named(CLAIM)), output(named(REDEEM)))

    def test_21_address(self):
        for spent, created in (
            (CLAIM, REGISTER),
            (REVEAL, REGISTER),
            (REGISTER, UPDATE),
            (FINALIZE, REVOKE),
            (TRANSFER, RENEW),
        ):
            with self.subTest(spent=spent, created=created):
                self.assert_pair("refused 21 at 0", output(named(spent)), output(named(created), hash=OTHER_HASH))
                self.assert_pair("refused 21 at 0", output(named(spent)), output(named(created), version=1))
                self.assert_pair("refused 21 at 0", output(named(spent)), output(named(created), hash=b"\x11" * 21))

    def test_22_value(self):
        for spent, created in (
            (REGISTER, UPDATE),
            (UPDATE, RENEW),
            (RENEW, TRANSFER),
            (FINALIZE, REVOKE),
            (TRANSFER, FINALIZE),
            (TRANSFER, UPDATE),
        ):
            with self.subTest(spent=spent, created=created):
                self.assert_pair("refused 22 at 0", output(named(spent)), output(named(created), value=999))
                self.assert_pair("refused 22 at 0", output(named(spent)), output(named(created), value=1001))

    def test_value_and_address_before_the_transition(self):
        self.assert_pair("refused 22 at 0", output(named(REGISTER)), output(covenant(OPEN), value=999, hash=OTHER_HASH))
        self.assert_pair("refused 21 at 0", output(named(REGISTER)), output(covenant(OPEN), hash=OTHER_HASH))
        self.assert_pair("refused 14 at 0", output(named(REGISTER)), output(covenant(OPEN)))
        self.assert_pair("refused 22 at 0", output(TRANSFER_CONTENT), output(covenant(OPEN), value=999))

    def test_23_destination(self):
        self.assert_pair("refused 23 at 0", output(TRANSFER_CONTENT), output(named(FINALIZE), version=5))
        self.assert_pair(
            "refused 23 at 0", output(TRANSFER_CONTENT), output(named(FINALIZE), version=4, hash=OTHER_HASH)
        )
        self.assert_pair("refused 23 at 0", output(TRANSFER_CONTENT), output(named(FINALIZE), version=5, hash=b""))

    def test_24_revoked(self):
        self.assert_links("refused 24 at 0", [output(named(REVOKE))], [])
        self.assert_pair("refused 24 at 0", output(named(REVOKE)), output(named(REVOKE)))
        self.assert_links("refused 24 at 1", [output(covenant(NONE)), output(named(REVOKE))], [])

    def test_25_an_unknown_kind_creates_a_name(self):
        for created in range(CLAIM, REVOKE + 1):
            with self.subTest(created=created):
                self.assert_pair("refused 25 at 0", output(covenant(12)), output(named(created)))
                self.assert_pair("refused 25 at 0", output(covenant(255)), output(covenant(created)))

    def test_26_unpaired(self):
        for created in range(REVEAL, REVOKE + 1):
            with self.subTest(created=created):
                self.assert_links("refused 26 at 0", [], [output(covenant(created))])
                self.assert_links(
                    "refused 26 at 2",
                    [output(covenant(NONE))],
                    [output(covenant(NONE)), output(covenant(CLAIM)), output(covenant(created))],
                )

    def test_the_first_rule_broken_stops(self):
        revoked, plain = output(named(REVOKE)), output(covenant(NONE))
        self.assert_links(
            "refused 14 at 1", [plain, plain, revoked], [plain, output(named(REVEAL)), plain, output(named(REVEAL))]
        )
        self.assert_links("refused 24 at 2", [plain, plain, revoked], [plain, plain, plain, output(named(REVEAL))])
        self.assert_links("refused 26 at 3", [plain, plain, plain], [plain, plain, plain, output(named(REVEAL))])

    def test_an_index_of_more_digits(self):
        plain = output(covenant(NONE), hash=b"")
        self.assert_links("refused 24 at 10", [plain] * 10 + [output(covenant(REVOKE))], [])
        self.assert_links("refused 26 at 123", [], [plain] * 123 + [output(covenant(REVEAL))])

    # ---- the sheets: 1 to 5, 27, 28

    def test_1_no_file(self):
        self.assert_line("refused 1", {})
        self.assert_line("refused 1", {"tx.sheet": transaction([], [])})
        self.assert_line("refused 1", {"coins.sheet": NO_COINS})

    def test_1_a_file_that_cannot_be_read_to_its_end(self):
        self.assert_line("refused 1", {"tx.sheet": FOLDER, "coins.sheet": NO_COINS})
        self.assert_line("refused 1", {"tx.sheet": transaction([], []), "coins.sheet": FOLDER})
        self.assert_line_on_failing_reads("refused 1", {"tx.sheet": transaction([], []), "coins.sheet": NO_COINS})

    def test_1_cut_off(self):
        tx = transaction([numbered(1)], [output(named(REGISTER))])
        spent = coins([(numbered(1), output(named(REVEAL)))])
        self.assert_sheets("links inputs=1 linked=1 names=1", tx, spent)
        for size in range(len(tx)):
            with self.subTest(tx=size):
                self.assert_sheets("refused 1", tx[:size], spent)
        for size in range(len(spent)):
            with self.subTest(coins=size):
                self.assert_sheets("refused 1", tx, spent[:size])

    def test_2_count_or_item_too_long(self):
        self.assert_sheets("refused 2", transaction([], [output(b"\x00\xfd\xe9\x03")]), NO_COINS)
        self.assert_sheets("refused 2", transaction([], [output(b"\x00\x01\xfe\x41\x42\x0f\x00")]), NO_COINS)
        self.assert_sheets("refused 2", transaction([], []), coins([(numbered(1), output(b"\x00\xfd\xe9\x03"))]))

    def test_3_leftover(self):
        self.assert_sheets("refused 3", transaction([], []) + b"\x00", NO_COINS)
        self.assert_sheets("refused 3", transaction([], []), NO_COINS + b"\x00")

    def test_4_a_longer_form_than_needed(self):
        self.assert_sheets("refused 4", transaction([], [output(b"\x00\xfd\x01\x00")]), NO_COINS)
        self.assert_sheets(
            "refused 4", transaction([], []), coins([(numbered(1), output(b"\x00\x01\xfd\x01\x00\xaa"))])
        )

    def test_5_over_the_allowance(self):
        content = b"\x00\x02\x03abc\xfe\x40\x42\x0f\x00"
        self.assert_sheets("refused 5", transaction([], [output(content)]), NO_COINS)
        self.assert_sheets("refused 5", transaction([], []), coins([(numbered(1), output(content))]))

    def test_27_head_of_the_transaction(self):
        self.assert_sheets("refused 27", head(TRANSACTION, 0, 0, version=0), NO_COINS)
        self.assert_sheets("refused 27", head(TRANSACTION, 0, 0, version=2), NO_COINS)
        self.assert_sheets("refused 27", head(COINS, 0, 0), NO_COINS)
        self.assert_sheets("refused 27", head(2, 0, 0), NO_COINS)
        self.assert_sheets("refused 27", head(TRANSACTION, 0, 0, spare=1), NO_COINS)

    def test_27_head_of_the_coins(self):
        empty = transaction([], [])
        self.assert_sheets("refused 27", empty, head(COINS, 0, 0, version=15))
        self.assert_sheets("refused 27", empty, head(TRANSACTION, 0, 0))
        self.assert_sheets("refused 27", empty, head(3, 0, 0))
        self.assert_sheets("refused 27", empty, head(COINS, 0, 1))
        self.assert_sheets("refused 27", empty, head(COINS, 0, 0, spare=32))

    def test_27_spare_bits_of_an_output(self):
        self.assert_sheets("refused 27", transaction([], [output(covenant(NONE), spare=1)]), NO_COINS)
        self.assert_sheets("refused 27", transaction([], []), coins([(numbered(1), output(covenant(NONE), spare=2))]))

    def test_28_over_32768(self):
        empty = transaction([], [])
        self.assert_sheets("refused 28", empty + bytes(32765), NO_COINS)
        self.assert_sheets("refused 28", empty, NO_COINS + bytes(32765))
        self.assert_sheets("refused 28", bytes(40000), bytes(40000))
        self.assert_line("refused 28", {"tx.sheet": bytes(32769)})

    def test_32768_is_not_too_long(self):
        empty = transaction([], [])
        self.assert_sheets("refused 3", empty + bytes(32764), NO_COINS)
        self.assert_sheets("refused 3", empty, NO_COINS + bytes(32764))

    def test_the_transaction_sheet_is_judged_before_the_coin_sheet(self):
        self.assert_line("refused 1", {"coins.sheet": bytes(40000)})
        self.assert_sheets("refused 27", bytes(4), bytes(40000))
        self.assert_sheets("refused 3", transaction([], []) + b"\x00", bytes(40000))
        self.assert_sheets("refused 27", bytes(4), b"")
        self.assert_sheets("refused 28", transaction([numbered(1)], [output(named(REVEAL))]), bytes(40000))

    def test_the_sheets_are_judged_before_the_links(self):
        self.assert_sheets("refused 3", transaction([NULL_OUTPOINT], []), NO_COINS + b"\x00")
        self.assert_sheets("refused 1", transaction([], [output(named(REVEAL))]), b"")


if __name__ == "__main__":
    unittest.main()
