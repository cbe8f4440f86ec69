# SPDX-License-Identifier: MIT
"""How the assembler of proved code is had from the kit: its clang is called twice by the same
words, and assembler of other sources than the archive's is not packed."""
import subprocess
from types import SimpleNamespace

import pytest

from tools.dist import modules
from tools.dist.files import Missing

# A clang that writes its words to the file that it is to make, and fails if FAILS is among them.
CLANG = """\
#!/bin/sh
case " $* " in *" ${FAILS:-nothing} "*) exit 3 ;; esac
last=
for word; do
    [ "$last" = -o ] && printf '%s\\n' "$*" > "$word"
    last=$word
done
"""
STAMP, OTHER_STAMP = "5" * 64, "6" * 64


@pytest.fixture
def crate(tmp_path, monkeypatch):
    """A crate of a repository here, with a kit; its build calls the clang of a toolchain folder."""
    monkeypatch.setattr(modules, "TOP", tmp_path)
    (tmp_path / "crates" / "rrc_c" / "out").mkdir(parents=True)
    kit = tmp_path / "kit" / "toolchain"
    for name in ("bin", "lib"):
        (kit / name).mkdir(parents=True)
    (kit / "bin" / "clang").write_text(CLANG)
    (kit / "bin" / "clang").chmod(0o755)

    def call(toolchain, *words):
        return subprocess.run([f"{toolchain}/bin/clang", *words], cwd=tmp_path).returncode
    return SimpleNamespace(name="rrc_c", call=call, stamp=lambda: STAMP, kit=kit,
                           rt=SimpleNamespace(rtlib=SimpleNamespace(KIT=str(kit.parent))),
                           source=tmp_path / "crates" / "rrc_c" / "out" / "rrc_c-x86_64.s")


def built(crate, *words):
    """The status of a build of the crate, by a call of clang with these words."""
    with modules.written(crate.rt, crate):
        return crate.call(str(crate.kit), *words)


def test_both_have_the_same_words(crate, tmp_path):
    assert built(crate, "-O3", "-c", "-x", "ir", "in.bc", "-o", "a file.o", "-fPIC") == 0
    assert (tmp_path / "a file.o").read_text() == "-O3 -c -x ir in.bc -o a file.o -fPIC\n"
    stamp, words = crate.source.read_text().splitlines()
    assert words == f"-O3 -S -x ir in.bc -o {crate.source} -fPIC -fno-integrated-as"
    assert STAMP in stamp


def test_what_is_no_object_has_no_assembler(crate):
    assert built(crate, "-S", "-emit-llvm", "in.bc", "-o", "printed.ll") == 0
    assert not crate.source.exists()


@pytest.mark.parametrize("fails, status", [("-c", 3), ("-S", 0)])
def test_the_object_is_what_counts(fails, status, crate, monkeypatch):
    """A build fails with the object, and not with the assembler; neither leaves an older one."""
    crate.source.write_text("older")
    monkeypatch.setenv("FAILS", fails)
    assert built(crate, "-O3", "-c", "in.bc", "-o", "a.o") == status
    assert not crate.source.exists()


@pytest.mark.parametrize("first_line, found", [
    (f"/* Of sources with the stamp {STAMP}. */\n", {"x86_64"}),
    (f"/* Of sources with the stamp {OTHER_STAMP}. */\n", None), ("\t.text\n", None), ("", None)])
def test_assembler_of_other_sources_is_refused(first_line, found, crate):
    assert modules.found() == {}
    crate.source.write_text(first_line)
    crate.source.with_name("librrc_c.a.stamp").write_text(STAMP + OTHER_STAMP)
    if found:
        assert set(modules.found()) == found
    else:
        with pytest.raises(Missing, match="was made from other sources than the archive"):
            modules.found()
