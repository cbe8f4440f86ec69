# SPDX-License-Identifier: MIT
"""A Debian with no kit and no checkout, for commands as the documents have them."""
import re
import subprocess
from pathlib import Path

from tests.install.places import TOP
from tools.version import VERSION

SCRIPT = Path(__file__).with_suffix(".sh")
# What is mounted, and what runs, ends with the first process of these.
APART = ["unshare", "--mount", "--net", "--pid", "--fork", "--kill-child"]
# What has to be allowed here: a tmpfs, and over it the folder of packages, which is written to.
PROBE = """\
mount -t tmpfs none "$1" && cd "$1" && mkdir written work root &&
mount -t overlay -o lowerdir=/usr,upperdir=written,workdir=work none root && touch root/it
"""
SECONDS = 1200


def typed(among):
    """Those commands of docs/PACKAGES.md among which is this one, as they are typed for this
    version."""
    told = (TOP / "docs" / "PACKAGES.md").read_text().replace("VERSION", VERSION)
    [found] = [it for it in re.findall(r"^```sh\n(.*?)\n```", told, re.M | re.S) if among in it]
    return found


class CleanRoot:
    """A folder over which each call mounts such a Debian anew, with this toolchain or with none.
    Outside of the call it stays empty."""

    def __init__(self, place):
        self.place = place

    def run(self, script, *words):
        """How a shell ends that runs a script with the folder and these words, apart from this
        machine's mounts, processes and network."""
        return subprocess.run([*APART, "sh", *script, self.place, *words], timeout=SECONDS,
                              stdin=subprocess.DEVNULL, capture_output=True, text=True)

    def refusal(self):
        """Why no root can be mounted on this machine, or nothing."""
        ran = self.run(["-c", PROBE, "sh"])
        return ran.stderr.strip() or "no reason is told" if ran.returncode else ""

    def said(self, commands, *files, toolchain=""):
        """What commands print that root types in its home, where these files are."""
        ran = self.run([SCRIPT], TOP, toolchain, commands, *files)
        assert ran.returncode == 0, ran.stdout + ran.stderr
        return ran.stdout
