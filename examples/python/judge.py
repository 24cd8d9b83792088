# SPDX-License-Identifier: MIT OR Apache-2.0
"""Judges commands by the shared library: python3 judge.py LIBSMMUQ_SO < WORDS

Each line of the input is 32 hexadecimal digits, a command as it lies in the queue. What each says is printed, or that
a unit refuses it.
"""
import os
import sys

sys.path.insert(0, os.path.join(os.path.dirname(os.path.realpath(__file__)), "..", "..", "bindings", "python"))
import smmuq

library = smmuq.Library(sys.argv[1])
unit = library.unit(256)
for line in sys.stdin:
    lo, hi = smmuq.words(line)
    try:
        unit.judge(lo, hi)
    except smmuq.Refused:
        print("refused")
    else:
        print(library.text(lo, hi))
