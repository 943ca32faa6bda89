#!/usr/bin/env python3
"""command.py: what people type gives what docs/COMMAND.md and docs/TEXT.md say. Wrong uses end with one line and write nothing, the example's answers
are those of the proved program, text and bytes go there and back, and a picture shows what the listing says or is not drawn. Each idea is a file of
tests/command/.

It prints each thing that differs and fails if there is one."""
import pathlib
import sys
import traceback

HERE = pathlib.Path(__file__).resolve().parent
sys.path[:1] = [str(HERE.parent), str(HERE / "command")]
sys.dont_write_bytecode = True

import bad
import example
import good
import lies
import picture
import round
import stored
from there import differs, ready


def looked(part):
    """What a part has counted; one that breaks off differs, and the others are looked at all the same."""
    try:
        return part.look()
    except Exception:
        differs.append(f"{part.__name__} broke off: {traceback.format_exc()}")
        return f"{part.__name__} broke off"


ready()
counts = [looked(part) for part in (bad, good, example, stored, round, picture, lies)]
print("\n".join(differs))
print(f"{', '.join(counts)}, {len(differs)} differ")
sys.exit(1 if differs else 0)
