# SPDX-License-Identifier: MIT
"""How bin/build-page makes the page: the module of the proved crate, and the one file with it.

`rattle` hands clang the LLVM module of a static library. A toolchain folder whose clang is a
wrapper keeps that module, beside the archive. Its target is then named anew, and the kit's clang
and linker make a module of 64-bit WebAssembly of it and of page/heap.c.
"""
import base64
import json
import re
import shlex
import subprocess
from pathlib import Path

from tools.rows import content, rows
from tools.version import VERSION

TOP = Path(__file__).resolve().parent.parent
PAGE = TOP / "page"
CRATE = "rrc_page"
EXPORTS = ("rrc_page_report", "rrc_page_histories", "rrc_page_spans", "page_room")
SCRIPTS = ("module.js", "rdata.js", "lives.js", "picture.js", "page.js")
TARGET = ["--target=wasm64-unknown-unknown", "-mcpu=lime1", "-mbulk-memory", "-O3",
          "--no-default-config"]
OF_C = ["-ffreestanding", "-fno-builtin", "-Wall", "-Wextra", "-Werror"]
# The page makes the memory, so that it decides how far it grows. What it begins with is in
# page/module.js too.
LINKED = ["-flavor", "wasm", "-mwasm64", "--no-entry", "--gc-sections", "--stack-first", "-z",
          "stack-size=1048576", "--import-memory", "--initial-memory=4194304",
          "--export=__heap_base", "--strip-all", *(f"--export={it}" for it in EXPORTS)]
# What LLVM's text has of x86-64: the processor, and how a stack is probed.
OF_X86 = re.compile(r' "(?:probe-stack|stack-probe-size|target-cpu|target-features)"="[^"]*"')
TARGET_LINES = re.compile(r"^target (?:datalayout|triple) = .*$", re.M)


class NotMade(Exception):
    """Why the page can't be made."""


def run(*words, **more):
    """What a command prints."""
    ran = subprocess.run(words, stdin=subprocess.DEVNULL, stdout=subprocess.PIPE,
                         stderr=subprocess.STDOUT, text=True, **more)
    if ran.returncode:
        raise NotMade(f"{Path(words[0]).name} ended with status {ran.returncode}:\n{ran.stdout}")
    return ran.stdout


class Maker:
    """Makes the module of a crate whose archive is built, in a folder of its own."""

    def __init__(self, rt, crate, folder):
        self.rt, self.crate, self.folder = rt, crate, folder
        self.kit = Path(rt.KIT)
        self.clang = self.kit / "toolchain" / "bin" / "clang"
        self.llvm = Path(crate.folder, "out", f"{crate.name}.bc")

    def toolchain(self):
        """A toolchain whose clang keeps the LLVM modules that it is handed."""
        made = self.folder / "toolchain"
        (made / "bin").mkdir(parents=True)
        (made / "lib").symlink_to(self.kit / "toolchain" / "lib")
        for it in self.clang.parent.iterdir():
            if it.name != "clang":
                (made / "bin" / it.name).symlink_to(it)
        kept, clang = shlex.quote(str(self.llvm)), shlex.quote(str(self.clang))
        (made / "bin" / "clang").write_text(
            f'#!/bin/sh\nfor it in "$@"; do case $it in *.bc) cp "$it" {kept};; esac; done\n'
            f'exec {clang} "$@"\n')
        (made / "bin" / "clang").chmod(0o755)
        return made

    def has_llvm(self):
        """Whether the LLVM module is that of the archive."""
        archive = Path(self.crate.folder, "out", f"lib{self.crate.name}.a")
        return self.llvm.exists() and self.llvm.stat().st_mtime >= archive.stat().st_mtime

    def keep_llvm(self):
        """Has `rattle` make the LLVM module, for x86-64, of what is proved."""
        lib = self.rt.rtlib
        words = [*self.crate.words(["--jobs", "1"]), "--toolchain", str(self.toolchain()),
                 "--backend", "llvm", *lib.KEPT, "-o", str(self.folder / "archive.a")]
        run(*lib.guarded(), lib.RATTLE, "build", *words, cwd=self.crate.folder)

    def for_wasm(self):
        """LLVM's text of the crate, for 64-bit WebAssembly."""
        heap = run(self.clang, *TARGET, *OF_C, "-S", "-emit-llvm", PAGE / "heap.c", "-o", "-")
        text = run(self.clang, "-S", "-emit-llvm", "-x", "ir", self.llvm, "-o", "-", "-Xclang",
                   "-disable-llvm-passes", "--no-default-config")
        lines = iter(TARGET_LINES.findall(heap))
        return OF_X86.sub("", TARGET_LINES.sub(lambda _: next(lines), text))

    def module(self):
        """The module of WebAssembly."""
        if not self.has_llvm():
            self.keep_llvm()
        source, made = self.folder / "wasm.ll", self.folder / "page.wasm"
        objects = [self.folder / "crate.o", self.folder / "heap.o"]
        source.write_text(self.for_wasm())
        run(self.clang, *TARGET, "-ffunction-sections", "-fdata-sections", "-c", "-x", "ir", source,
            "-o", objects[0])
        run(self.clang, *TARGET, *OF_C, "-c", PAGE / "heap.c", "-o", objects[1])
        run(self.clang.with_name("ld.lld"), *LINKED, *objects, "-o", made)
        return made.read_bytes()


def examples():
    """The examples that page/examples.json names, each with its row's trace and options."""
    found = rows()
    for it in json.loads((PAGE / "examples.json").read_text()):
        row = found[it["row"]]
        words = content(row, "args").decode().split()
        options = {name.removeprefix("--"): value for name, value in zip(words[::2], words[1::2])}
        yield {**it, "trace": content(row, "trace").decode("ascii"), "options": options}


def in_script(value):
    """JSON that may stand in a script of a page."""
    return json.dumps(value, separators=(",", ":")).replace("<", "\\u003c")


def page(module, proved_with):
    """The one file."""
    parts = {
        "VERSION": VERSION,
        "KIT": proved_with,
        "STYLE": (PAGE / "page.css").read_text(),
        "EXAMPLES": in_script(list(examples())),
        "MODULE": base64.b64encode(module).decode(),
        "SCRIPT": "\n".join((PAGE / it).read_text() for it in SCRIPTS),
    }
    return re.sub(r"@([A-Z]+)@", lambda it: parts[it[1]], (PAGE / "page.html").read_text())
