#!/usr/bin/env python3
"""events.py FOLDER: makes what crates/case_events has to print of its event values, from the rules alone; it reads nothing."""
import sys

from frames import store
from logs import LIMIT, WRAP, fault, record


def values():
    for kind in (0, 1, 2, 3, 255):
        for task in (0, 1, 255):
            for job in (0, 1, WRAP - 1):
                for room in (0, 19, 20, 24):
                    number = fault(kind, task, job)
                    out = bytearray(b"\x5a" * 24)
                    if number == 0 and room < 20:
                        said = "refused 14"
                    elif number:
                        said = "refused %d" % number
                    else:
                        said = "written"
                        out[:20] = record(kind, task, job, LIMIT)
                    yield "value %d %d %d %d %d" % (kind, task, job, room, number)
                    yield " ".join([said, *map(str, out)])


store(sys.argv[1], [], values())
