#!/usr/bin/env python3
"""promises.py: what the documents name and cite is there, every rule and every must-fail edit stands in a promise, every public function asks nothing and says
its whole answer, and crates.txt, the folders and docs/ARCHITECTURE.md have the same crates, and the reading path of the README is whole. Each idea is a file of tests/promises/.

It prints each thing that is missing and fails if there is one."""
import pathlib
import sys

sys.path.insert(0, str(pathlib.Path(__file__).resolve().parent / "promises"))
sys.dont_write_bytecode = True

import cited
import functions
import house
import named
import path
import tags
from there import missing

counts = [part.look() for part in (tags, named, functions, cited, house, path)]
print("\n".join(missing))
print(f"{', '.join(counts)}, {len(missing)} missing")
sys.exit(1 if missing else 0)
