# SPDX-License-Identifier: MIT
"""Text in the macros of man(7), for the man pages of the library and of the commands."""
import re
import textwrap

from tools.version import VERSION

# What groff would print as another character, and what stands for it.
CHARACTERS = {"\\": r"\e", "-": r"\-", "'": r"\(aq", "^": r"\(ha", "~": r"\(ti"}


def roff(text):
    """Text that has no macro and no escape: words in backquotes are bold, words in stars italic."""
    text = text.translate(str.maketrans(CHARACTERS))
    text = re.sub(r"`([^`]*)`", r"\\fB\1\\fR", text)
    text = re.sub(r"\*(\w+)\*", r"\\fI\1\\fR", text)
    return re.sub(r"^\.", r"\\&.", text, flags=re.M)


def filled(texts):
    """Paragraphs."""
    return "".join(roff("\n".join(textwrap.wrap(it, 72))) + "\n.PP\n" for it in texts)


def verbatim(text):
    """Lines that stay as they are."""
    return f".nf\n{roff(text.rstrip())}\n.fi\n"


def listed(items):
    """A list: of each item what is explained, in roff, and the explanation, as text."""
    return "".join(f".TP\n{term}\n{roff(text)}\n" for term, text in items) + ".PP\n"


def page(name, section, sections):
    """A man page of these sections, each a title and its text in roff. Lines are not stretched, and
    no name is hyphenated."""
    head = f'.TH {name.upper()} {section} "" "rrcache {VERSION}" "rrcache"\n.if n .ad l\n.nh\n'
    return head + "".join(f".SH {title}\n{text}" for title, text in sections.items())
