# SPDX-License-Identifier: MIT
"""What bin/dist and bin/install-c are made of: which files are installed, and how they are packed.

  files               files and links by their paths, and how these are written and packed
  library, program    what is installed of the C library, and of the program and its tools
  proofs              what a release says of its proofs
  debian              the packages for Debian
  modules, source     the proved crate in assembler, and the sources that `cc` alone builds

Their templates are in packaging/.
"""
