# SPDX-License-Identifier: MIT
"""The tests around the program and the libraries. `pytest tests/NAME` runs what a folder tests, and
bin/test runs all.

  rows       worked traces with their reports
  c          the C library
  forwarder  the forwarder of examples/forwarder
  python     the Python package
  install    the C library as bin/install-c installs it
  tools      from-capture, what-if, why, fuzz, the model of the rules, and the program's options
  captures   a capture that the tools are tested on
  archives   audits of archives that the model of the rules makes
  hostile    what hostile messages, names, traces and floods cost
  schedules  random traces by several workers
  refusals   requests for memory and threads that are refused
  documents  widths, links and paths of the documents, and how sources are laid out
"""
