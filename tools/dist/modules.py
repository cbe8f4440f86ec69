# SPDX-License-Identifier: MIT
"""The proved crate of the C library in assembler, of which `cc` makes an object without a kit.

The kit's compiler hands LLVM's form of the proved code to the clang of its toolchain folder. Here
it gets a folder whose clang is a script: it calls the kit's clang twice, by the same words, once
for the object and once for assembler, in the form that GNU as reads too. The object is what counts:
if the assembler cannot be written, the build goes on without.
"""
import os
import re
from contextlib import contextmanager
from pathlib import Path
from tempfile import TemporaryDirectory

from tools import kit
from tools.dist.files import TOP, Missing

CRATE = "rrc_c"
# The machine that the kit compiles for unless another one is named, and that one.
OWN, OTHER = "x86_64", "aarch64"
# The first line of the assembler, by which it is known of which sources it is.
FIRST_LINE = re.compile(r"/\* Of sources with the stamp (\w{64})\. \*/")
CLANG = """\
#!/bin/sh
'{clang}' "$@" || exit
case " $* " in *" -c "*) ;; *) exit ;; esac
last=
for word; do
    shift
    case $last:$word in
        -o:*) word='{assembler}' ;;
        *:-c) word=-S ;;
    esac
    set -- "$@" "$word"
    last=$word
done
'{clang}' "$@" -fno-integrated-as || rm -f '{assembler}'
"""


def assembler(machine=OWN, crate=CRATE):
    """Where the assembler of a crate for a machine is, from the folder of the repository on."""
    return Path("crates", crate, "out", f"{crate}-{machine}.s")


def found():
    """The assembler of the library's crate by machine, as far as it was made. It has to be of the
    sources that the archive is of."""
    archive = TOP / "crates" / CRATE / "out" / f"lib{CRATE}.a.stamp"
    made = {machine: (TOP / assembler(machine)).read_text() for machine in (OWN, OTHER)
            if (TOP / assembler(machine)).is_file()}
    for machine, it in made.items():
        stamp = FIRST_LINE.fullmatch(it.partition("\n")[0])
        if not (stamp and archive.is_file() and archive.read_text().startswith(stamp[1])):
            raise Missing(f"{assembler(machine)} was made from other sources than the archive: "
                          + ("bin/dist --for-aarch64 makes it again" if machine == OTHER else
                             f"remove the archive, and bin/build {CRATE} makes both"))
    return {machine: it.encode() for machine, it in made.items()}


def put_toolchain(own, path, folder):
    """Makes a toolchain folder of the kit's own, whose clang also writes assembler to a path."""
    (folder / "bin").mkdir()
    (folder / "lib").symlink_to(own / "lib")
    for it in (own / "bin").iterdir():
        if it.name != "clang":
            (folder / "bin" / it.name).symlink_to(it)
    clang = folder / "bin" / "clang"
    clang.write_text(CLANG.format(clang=own / "bin" / "clang", assembler=path))
    clang.chmod(0o755)


@contextmanager
def written(rt, crate, machine=OWN):
    """Meanwhile, what is compiled of a crate of the kit's is also written in assembler."""
    own, call, stamp = Path(rt.rtlib.KIT, "toolchain"), crate.call, crate.stamp()
    path = TOP / assembler(machine, crate.name)
    path.unlink(missing_ok=True)
    with TemporaryDirectory() as folder:
        put_toolchain(own, path, Path(folder))
        crate.call = lambda *words: call(*(folder if it == str(own) else it for it in words))
        try:
            yield
        finally:
            crate.call = call
    if path.exists():
        path.write_text(f"/* Of sources with the stamp {stamp}. */\n{path.read_text()}")


def build(machine):
    """Has the kit prove and compile the crate for a machine, over what bin/build kept, and returns
    its status. The archive that bin/build made stays as it is."""
    rt = kit.load()
    rt.rtlib.guarded()
    crate = next(it for it in rt.rtlib.crates_below(str(TOP)) if it.name == CRATE)
    flags = ["--jobs", os.environ.get("RT_JOBS", "2"), "--target", f"{machine}-unknown-linux-gnu"]
    held = rt.rtlib.lock([crate])
    try:
        with TemporaryDirectory() as folder, written(rt, crate, machine):
            return crate.compile(flags, f"{folder}/lib{CRATE}.a")
    finally:
        for it in held:
            os.close(it)
