# SPDX-License-Identifier: MIT
"""The documents and the examples of a release, laid out as in the repository."""
from tools.dist.files import TOP, Tree, copy, listed

DOCUMENTS = ("README.md", "CHANGELOG.md", "SECURITY.md", "LICENSE", "docs/*")
EXAMPLES = ("examples/*.c", "examples/*/*")


def matching(patterns) -> Tree:
    found = {str(it.relative_to(TOP)) for pattern in patterns for it in TOP.glob(pattern)}
    return {it: copy(TOP / it) for it in listed() if it in found}


def documents() -> Tree:
    return matching(DOCUMENTS)


def examples() -> Tree:
    return matching(EXAMPLES)
