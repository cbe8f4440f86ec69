# SPDX-License-Identifier: MIT
"""The Rust crate (rust/) over the C library in build/: cargo runs its tests, with the
shared library and with the archive, and clippy, rustfmt and rustdoc find no fault. The build takes
the library from the folders that README.md of the crate names, the examples do what they say, and
memcheck sees no error.

Nothing is downloaded. What cargo makes goes into a folder of the tests' own.
"""
import os
import re
import shutil
import socket
import subprocess
from pathlib import Path

import pytest

from tools.version import VERSION

TOP = Path(__file__).resolve().parents[2]
CRATE = TOP / "rust"
# Each way to link with the library: further words for cargo.
LINKED = {"shared": [], "static": ["--features", "static"]}
# memcheck, which fails on any error. The tests of threads are too slow under it, and those that run
# cc test no memory.
MEMCHECK = ["valgrind", "-q", "--error-exitcode=3", "--leak-check=full",
            "--errors-for-leak-kinds=definite", "--fair-sched=try"]
SKIPPED = ["--skip", "threads::", "--skip", "layout::"]
SECONDS = 120
RUST = re.search(r'^rust-version = "1\.(\d+)"$', (CRATE / "Cargo.toml").read_text(), re.M)[1]


def has(*words):
    """What cargo says of its version, or that of a tool of its own; nothing if it is not there."""
    if shutil.which("cargo") is None:
        return ""
    told = subprocess.run(["cargo", *words, "--version"], capture_output=True, text=True)
    return told.stdout if told.returncode == 0 else ""


def is_new_enough():
    version = re.match(r"cargo 1\.(\d+)", has())
    return bool(version) and int(version[1]) >= int(RUST)


pytestmark = pytest.mark.skipif(not is_new_enough(), reason=f"there is no cargo 1.{RUST} here")


class Cargo:
    """cargo, with a folder for what it makes."""

    def __init__(self, target, folder=CRATE):
        self.folder = folder
        self.environment = {**os.environ, "CARGO_TARGET_DIR": str(target), "RUSTFLAGS": None,
                            "CARGO_TERM_COLOR": "never", "RRCACHE_LIB_DIR": str(TOP / "build")}

    def run(self, *words, **more):
        """Runs it, with more words in its environment; None takes one away."""
        environment = {name: it for name, it in {**self.environment, **more}.items() if it}
        return subprocess.run(["cargo", *words], cwd=self.folder, capture_output=True, text=True,
                              env=environment)

    def said(self, *words, **more):
        """What it prints, which is to end well."""
        ran = self.run(*words, **more)
        assert ran.returncode == 0, ran.stdout + ran.stderr
        return ran.stdout + ran.stderr


@pytest.fixture(scope="module")
def cargo(library, tmp_path_factory):
    return Cargo(tmp_path_factory.mktemp("target"))


@pytest.fixture
def apart(cargo, tmp_path):
    """cargo on a copy of the crate, beside which no library is built."""
    ignored = shutil.ignore_patterns("target", "Cargo.lock")
    folder = shutil.copytree(CRATE, tmp_path / "rust", ignore=ignored)
    return Cargo(tmp_path / "target", folder)


@pytest.mark.parametrize("how", LINKED)
def test_cargo_tests(how, cargo, capsys):
    told = cargo.said("test", "--offline", *LINKED[how])
    results = re.findall(r"^test result: ok\. (\d+) passed; 0 failed; (\d+) ignored", told, re.M)
    # Those of the crate, of tests/ and of the documents.
    assert sum(int(passed) > 0 for passed, _ in results) == 3, told
    assert not any(int(ignored) for _, ignored in results), told
    with capsys.disabled():
        print(f"\n{how}: {sum(int(passed) for passed, _ in results)} tests")


def test_clippy(cargo):
    if not has("clippy"):
        pytest.skip("there is no cargo clippy here")
    cargo.said("clippy", "--offline", "--all-targets", "--", "-D", "warnings")


def test_format(cargo):
    if not has("fmt"):
        pytest.skip("there is no cargo fmt here")
    cargo.said("fmt", "--check")


def test_documents(cargo):
    told = cargo.said("doc", "--offline", "--no-deps", RUSTDOCFLAGS="-D warnings")
    assert "warning" not in told


def test_version():
    assert f'\nversion = "{VERSION}"\n' in (CRATE / "Cargo.toml").read_text()


def test_sources_name_their_licence():
    found = [it.name for it in sorted(CRATE.rglob("*.rs"))
             if "SPDX-License-Identifier: MIT" not in it.read_text().partition("\n")[0]]
    assert not found


@pytest.mark.parametrize("named", ["empty", None], ids=["a folder without it", "nowhere"])
def test_no_library_is_told_in_a_line(named, apart, tmp_path):
    (tmp_path / "empty").mkdir()
    path = named and str(tmp_path / named)
    ran = apart.run("check", "--offline", RRCACHE_LIB_DIR=path, PKG_CONFIG_LIBDIR=str(tmp_path))
    fault = "which has no librrcache.so" if named else "there is no librrcache.so: RRCACHE"
    errors = [line for line in ran.stderr.split("\n") if line.startswith("error: rrcache@")]
    assert ran.returncode != 0 and len(errors) == 1 and fault in errors[0], ran.stderr


@pytest.mark.skipif(shutil.which("pkg-config") is None,
                    reason="there is no pkg-config here (bin/setup installs it)")
@pytest.mark.parametrize("version, is_found", [(VERSION, True), ("2.0.9", False), ("3.0.0", False)])
def test_pkg_config_leads_to_the_library(version, is_found, apart, tmp_path):
    (tmp_path / "rrcache.pc").write_text(
        f"libdir={TOP / 'build'}\nName: rrcache\nDescription: none\nVersion: {version}\n"
        f"Libs: -L${{libdir}} -lrrcache\n")
    ran = apart.run("check", "--offline", RRCACHE_LIB_DIR=None, PKG_CONFIG_PATH=str(tmp_path))
    assert (ran.returncode == 0) == is_found, ran.stderr


@pytest.mark.parametrize("how", LINKED)
def test_other_crates_link_with_it(how, cargo, tmp_path):
    """One with a build script that sets the rpath, as README.md of the crate says, and with the
    archive one that needs none."""
    features = ', features = ["static"]' * (how == "static")
    (tmp_path / "Cargo.toml").write_text(
        '[package]\nname = "other"\nedition = "2021"\n\n'
        f'[dependencies]\nrrcache = {{ path = "{CRATE}"{features} }}\n')
    if how == "shared":
        (tmp_path / "build.rs").write_text(
            "fn main() {\n"
            '    let folder = std::env::var("DEP_RRCACHE_LIB_DIR").unwrap();\n'
            '    println!("cargo::rustc-link-arg=-Wl,-rpath,{folder}");\n'
            "}\n")
    (tmp_path / "src").mkdir()
    (tmp_path / "src" / "main.rs").write_text(
        "fn main() {\n"
        "    let cache = rrcache::Cache::open(&Default::default()).unwrap();\n"
        '    println!("{}", cache.stats());\n'
        "}\n")
    cargo.said("build", "--offline", "--manifest-path", tmp_path / "Cargo.toml")
    program = Path(cargo.environment["CARGO_TARGET_DIR"]) / "debug" / "other"
    told = subprocess.run([program], capture_output=True, text=True, check=True).stdout
    assert told.startswith("hits 0 stale 0 ") and told.endswith(" keys 0 octets 0\n")


def built(cargo, example):
    cargo.said("build", "--offline", "--example", example)
    return Path(cargo.environment["CARGO_TARGET_DIR"]) / "debug" / "examples" / example


@pytest.fixture(scope="module")
def port(cargo):
    """The port at which the example that answers queries listens."""
    with subprocess.Popen([built(cargo, "answer"), "127.0.0.1:0"], stdout=subprocess.PIPE,
                          text=True) as server:
        yield int(server.stdout.readline().rpartition(":")[2])
        server.kill()


def test_example_answers(port):
    dns = pytest.importorskip("dns.query", reason="bin/setup installs dnspython")
    from dns import flags, message, rcode
    told = {name: dns.udp(message.make_query(name, "A"), "127.0.0.1", 5, port)
            for name in ("WWW.example.", "other.example.")}
    assert told["other.example."].rcode() == rcode.SERVFAIL
    [rrset] = told["WWW.example."].answer
    assert [it.to_text() for it in rrset] == ["192.0.2.1"] and 3590 <= rrset.ttl <= 3600
    assert all(it.flags & flags.RD for it in told.values())


def test_example_answers_queries_alone(port):
    """A response, another opcode, no question, two questions, another class, a name that has no
    end: none is answered, and the query behind them is."""
    question, end = b"\3www\7example\0\0\1\0\1", b"\0" * 6
    refused = [b"\0\0\x80\0\0\1" + end + question, b"\0\0\x28\0\0\1" + end + question,
               b"\0\0\1\0\0\0" + end, b"\0\0\1\0\0\2" + end + question * 2,
               b"\0\0\1\0\0\1" + end + question[:-1] + b"\3",
               b"\0\0\1\0\0\1" + end + question[:9], b"\0\0", b""]
    with socket.socket(socket.AF_INET, socket.SOCK_DGRAM) as client:
        client.settimeout(SECONDS)
        client.connect(("127.0.0.1", port))
        for octets in refused * 4:
            client.send(octets)
        for _ in range(8):
            client.send(b"\7\7\0\0\0\1" + end + question)
            # RFC 1035 section 4.1.1: the identifier, QR, RD clear as in the query, RA, one answer.
            assert client.recv(512)[:8] == b"\7\7\x80\x80\0\1\0\1"


def test_example_is_short():
    """It shows in 30 lines how a resolver answers from the cache."""
    assert len((CRATE / "examples" / "answer.rs").read_text().splitlines()) <= 30


def test_first_example(cargo):
    """The line of a zone file, with rdata in the form of RFC 3597 section 5."""
    told = subprocess.run([built(cargo, "first")], capture_output=True, text=True, check=True)
    assert re.fullmatch(r"www\.example\. (3600|3599) IN A \\# 4 c0000201\n", told.stdout)


@pytest.mark.skipif(shutil.which("valgrind") is None,
                    reason="there is no valgrind here (bin/setup installs it)")
def test_memcheck(cargo):
    """Miri runs no C, so this stands for it: no octet is read that is not there or was not written,
    and none is lost."""
    told = cargo.said("test", "--offline", "--no-run", "--lib", "--tests")
    programs = re.findall(r"Executable .*\((.*)\)", told)
    assert len(programs) == 2, told
    for program in programs:
        ran = subprocess.run([*MEMCHECK, program, *SKIPPED], cwd=CRATE, capture_output=True,
                             text=True, timeout=SECONDS)
        assert ran.returncode == 0 and "test result: ok" in ran.stdout, ran.stdout + ran.stderr
