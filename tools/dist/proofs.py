# SPDX-License-Identifier: MIT
"""What a release says of its proofs: the kit that made them, what the gate said, and the checksums
of the sources that they read."""
import hashlib
import re
import shutil
import subprocess

from tools.dist.files import TOP, Missing, Tree, git, text
from tools.kit import NoKit, is_made, load

# What `rt ci` prints once all is proved, with the line of its counts; and what README.md says of
# the kit.
PASSED = re.compile(r"^rt: ok; .*\n\d+ passed, 0 failed$", re.M)
FAILED = re.compile(r"^rt: FAILED: ", re.M)
PROVED_WITH = re.compile(r"^Proved with `(.*)` \(`rt version`\)\.$", re.M)
SOURCES = ("crates/*/src/**/*", "crates/*/specs/**/*", "crates/*/proofs/**/*",
           "crates/*/must-fail/*", "crates.txt", "HANDLES")
# What is compiled of the sources, and what makes it.
PROGRAM = "crates/rrcache/out/rrcache"
COMPILED = {"build/librrcache.so": "bin/build-c", PROGRAM: "bin/build"}
ABOUT = """\
What was proved, by what, and of which sources.

Kit (rt version):  {kit}
Gate (rt ci):      {gate}

sources.sha256 has the checksum of each file that the proofs read. In a checkout of the repository
at version {version} this compares them:

    sha256sum --check sources.sha256

docs/PACKAGES.md says which part of a package is proved. docs/TESTING.md says what is trusted.
"""
NO_LOG = "no log of it was given to bin/dist"


def kit():
    """The kit that proved the sources, as README.md has it, which is the one here, if any is."""
    named = PROVED_WITH.search((TOP / "README.md").read_text())[1]
    if shutil.which("rt"):
        here = subprocess.run(["rt", "version"], check=True, capture_output=True, text=True)
        if here.stdout.strip() != named:
            raise Missing(f"README.md names the kit {named}, but `rt version` is"
                          f" {here.stdout.strip()}")
    return named


def gate(log):
    """What the gate said last, by a log of `rt ci` or of bin/test."""
    if log is None:
        return NO_LOG
    told = log.read_text(errors="replace")
    passed = [*PASSED.finditer(told)]
    if not passed or FAILED.search(told, passed[-1].end()):
        raise Missing(f"{log} does not end with a passed gate: run rt ci")
    return passed[-1][0].replace("\n", "\n" + " " * 19)


def read():
    """The files that the proofs read, by path."""
    return {str(it.relative_to(TOP)): it for pattern in SOURCES for it in TOP.glob(pattern)
            if it.is_file()}


def is_built():
    """Whether a kit here can tell that the program was made of the sources as they are now."""
    try:
        rt = load()
    except NoKit:
        return False
    return any(it.name == "rrcache" and is_made(rt, it) for it in rt.rtlib.crates_below(str(TOP)))


def refuse_changes():
    """Raises Missing if files here are not those of the last commit, or if a source of the proofs
    came after what was compiled of them."""
    if changed := git("status", "--porcelain").splitlines():
        raise Missing(f"{len(changed)} files are not as in the last commit, as {changed[0][3:]}")
    newest = max(it.stat().st_mtime for it in read().values())
    # The time at which a file came to its place, since the kit may put one there that it kept.
    old = [it for it in COMPILED if (TOP / it).stat().st_ctime < newest]
    if old == [PROGRAM] and is_built():
        return
    if old:
        raise Missing(f"sources are newer than {old[0]}: {COMPILED[old[0]]} makes it anew")


def checksums():
    """The checksums of the sources in the form of `sha256sum`, by path."""
    return "".join(f"{hashlib.sha256(it.read_bytes()).hexdigest()}  {name}\n"
                   for name, it in sorted(read().items()))


def proofs(version, log=None) -> Tree:
    told = ABOUT.format(kit=kit(), gate=gate(log), version=version)
    return {"PROOFS": text(told), "sources.sha256": text(checksums())}
