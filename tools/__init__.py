# SPDX-License-Identifier: MIT
"""What the commands of bin/, tests/ and bench/ share; nothing here is of the program or library.

  names, wire, messages, traces   names, messages and traces, read and written
  model, archive, audits          the rules of the cache, histories by them, and their audits
  grammar, mutation, trials       random traces, and what is compared on them
  rows                            the worked traces of tests/rows
  captures                        what bin/from-capture, bin/what-if and bin/why are made of
  commands                        how commands read their arguments, and how they end
  command_manual, roff            the man pages of the commands, and the text of man pages
  completion                      the completion of the commands in bash
  kit, lanes, processes           the Rattle kit, tasks side by side, and what these use
  parts, running, beside          the parts of bin/test, and what is built beside its gate
  version, manual, debian         the library's version and man pages, and libraries of Debian's
  dist                            what bin/install-c installs and bin/dist packs

build-times has how long each crate takes, for bin/build, and proof-times prints the slowest proofs.
"""
import sys
from pathlib import Path

# Names and archives are read by the Python package, which lies there.
sys.path.insert(0, str(Path(__file__).resolve().parents[1] / "python"))
