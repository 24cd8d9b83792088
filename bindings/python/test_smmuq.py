# SPDX-License-Identifier: MIT OR Apache-2.0
"""Tests of smmuq.py: SMMUQ_LIBRARY=libsmmuq.so python3 -m unittest discover bindings/python"""
import os
import re
import unittest

import smmuq

TLBI_NH_VA = 0x0002000100000012  # VMID 1, ASID 2
SYNC = (0x46, 0)
HEADER = os.path.join(os.path.dirname(__file__), "..", "..", "include", "smmuq.h")


def page(address, **fields):
    return smmuq.Tag(**{"kind": smmuq.Kind.S1, "vmid": 1, "scope": smmuq.Scope.ASID, "asid": 2, "address": address, **fields})


class Units(unittest.TestCase):
    def setUp(self):
        self.library = smmuq.Library(os.environ["SMMUQ_LIBRARY"])
        self.unit = self.library.unit(4)

    def refused(self, status, call, *arguments):
        with self.assertRaises(smmuq.Refused) as caught:
            call(*arguments)
        self.assertEqual(caught.exception.status, status)
        return str(caught.exception)

    def test_an_entry_is_invalidated(self):
        self.unit.fill(page(0x3000), 0x1000)
        self.unit.fill(page(0x4000), 0x2000)
        self.assertEqual(self.unit.lookup(page(0x3000)).value, 0x1000)
        self.assertEqual(self.unit.judge(TLBI_NH_VA, 0x3001).removed, 1)
        self.assertIsNone(self.unit.lookup(page(0x3000)))
        self.assertEqual([entry.tag.address for entry in self.unit.entries()], [0x4000])
        self.assertEqual(self.unit.evict_machine(1), 1)
        self.assertEqual((len(self.unit), self.unit.entries()), (0, []))

    def test_a_stop_is_acknowledged(self):
        self.refused(smmuq.Status.ILL_OPCODE, self.unit.judge, 0xFF, 0)
        self.refused(smmuq.Status.STILL_STOPPED, self.unit.judge, *SYNC)
        self.unit.acknowledge(1, smmuq.Remedy.REPLACE)
        self.refused(smmuq.Status.REPLACED, self.unit.judge, 0xFF, 0)
        self.assertEqual(self.unit.judge(*SYNC).removed, 0)

    def test_what_is_refused_changes_nothing(self):
        self.refused(smmuq.Status.BAD_FIELD, self.unit.fill, page(0, scope=smmuq.Scope.UNSAID), 1)
        for at in range(4):
            self.unit.fill(page(at << 12), at)
        self.assertIn("full", self.refused(smmuq.Status.CACHES_FULL, self.unit.fill, page(4 << 12), 4))
        self.assertEqual(len(self.unit), 4)
        self.unit.reset()
        self.assertEqual(len(self.unit), 0)

    def test_a_closed_unit_is_empty(self):
        with self.library.unit(1) as unit:
            unit.fill(page(0), 1)
        self.refused(smmuq.Status.EMPTY_HANDLE, unit.judge, *SYNC)
        self.refused(smmuq.Status.BAD_CAPACITY, self.library.unit, 0)

    def test_words_have_a_text(self):
        lo, hi = smmuq.words("12000000010002000130000000000000")
        self.assertEqual((lo, hi), (TLBI_NH_VA, 0x3001))
        self.assertEqual(self.library.text(lo, hi), "TLBI_NH_VA vmid=1 asid=2 leaf=1 addr=0x3000")
        self.library.check(lo, hi)
        self.refused(smmuq.Status.ILL_OPCODE, self.library.text, 0xFF, 0)

    def test_statuses_are_those_of_the_header(self):
        with open(HEADER, encoding="utf-8") as header:
            numbers = {name: int(number, 0) for name, number in re.findall(r"SMMUQ_(\w+) = (0x[0-9a-f]+|0),", header.read())}
        for status in smmuq.Status:
            self.assertEqual(numbers[status.name], status, status.name)


if __name__ == "__main__":
    unittest.main()
