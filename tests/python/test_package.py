# SPDX-License-Identifier: MIT
"""The examples of the package's docstrings, its types, its version, where it finds the library, and
the package once it is installed."""
import doctest
import importlib.util
import os
import pkgutil
import re
import shutil
import subprocess
import sys
import sysconfig
import zipfile

import pytest

import rrcache
from tests.forwarder.harness import BUILD
from tools.version import SONAME, VERSION

PACKAGE = BUILD.parent / "python"


def test_docstrings():
    modules = [importlib.import_module(f"rrcache.{it.name}")
               for it in pkgutil.iter_modules(rrcache.__path__)]
    results = [doctest.testmod(it) for it in modules]
    assert [sum(it) for it in zip(*results)] == [0, 169]


def test_types():
    """The package has no faults by the strict rules of mypy."""
    pytest.importorskip("mypy", reason="bin/setup installs mypy")
    told = ran("-m", "mypy", "--strict", "--cache-dir", os.devnull, PACKAGE / "rrcache").stdout
    assert told.startswith("Success: no issues found"), told


@pytest.fixture
def checkout(tmp_path):
    """What of a checkout the package is made of."""
    folder = tmp_path / "checkout"
    shutil.copytree(PACKAGE, folder / "python", ignore=shutil.ignore_patterns("__pycache__"))
    (folder / "build").mkdir()
    for name in ("LICENSE", "build/librrcache.so"):
        shutil.copyfile(BUILD.parent / name, folder / name)
    return folder


def ran(*words, **more):
    """A command by this Python, in which no library is named."""
    named = {name: word for name, word in os.environ.items() if name != "RRCACHE_LIBRARY"}
    return subprocess.run([sys.executable, *words], capture_output=True, text=True,
                          cwd="/", env={**named, **more})


def installed(checkout, folder, *words, **more):
    """How `pip install ./python` ends, with no network."""
    return ran("-m", "pip", "install", "--quiet", "--no-index", "--disable-pip-version-check",
               *words, "--target", folder, checkout / "python", **more)


HAS_PIP = pytest.mark.skipif(importlib.util.find_spec("pip") is None,
                             reason="there is no pip here (python3-pip)")
# A shelf is asked, and the package says where it and its library are.
ASKED = """
import rrcache
from importlib.metadata import version
with rrcache.Shelf() as shelf:
    shelf.offer_set("www.example.", 1, 4, 60, [bytes([192, 0, 2, 1])], moment=1000)
    print(shelf.ask("www.example.", 1, moment=1010).left, rrcache.__file__)
[library] = {line.split()[-1] for line in open("/proc/self/maps") if "librrcache" in line}
print(library, version("rrcache"))
"""


@HAS_PIP
@pytest.mark.parametrize("words", [[], ["--no-build-isolation"]], ids=["isolated", "not_isolated"])
def test_an_installed_package_has_the_library(checkout, tmp_path, words):
    folder = tmp_path / "installed"
    assert installed(checkout, folder, *words).returncode == 0
    shutil.rmtree(checkout)
    told = ran("-c", ASKED, PYTHONPATH=str(folder)).stdout.split()
    assert told == ["50", f"{folder}/rrcache/__init__.py", f"{folder}/rrcache/librrcache.so",
                    VERSION]
    [wheel] = folder.glob("*.dist-info/WHEEL")
    assert re.search(r"^Tag: py3-none-(\w+)$", wheel.read_text(), re.M)[1] == re.sub(
        "[-.]", "_", sysconfig.get_platform())
    modules = {it.name for it in (folder / "rrcache").iterdir()}
    assert modules >= {it.name for it in (PACKAGE / "rrcache").glob("*.py*")}


@HAS_PIP
def test_an_installation_without_the_library(checkout, tmp_path):
    """One line says what is missing, or what to do of a library that has another place."""
    library, folder = checkout / "build" / "librrcache.so", tmp_path / "installed"
    moved = library.rename(tmp_path / "moved.so")
    refused = installed(checkout, folder)
    assert refused.returncode != 0 and not folder.exists()
    assert f"there is no {library}: bin/build-c builds the library" in refused.stderr
    assert installed(checkout, folder, RRCACHE_LIBRARY=str(moved)).returncode == 0
    assert (folder / "rrcache" / "librrcache.so").read_bytes() == moved.read_bytes()


def test_an_editable_package(checkout, tmp_path):
    """It has the modules of the checkout, and their library."""
    build = f"import backend; print(backend.build_editable({str(tmp_path)!r}))"
    name = ran("-c", build, PYTHONPATH=str(checkout / "python")).stdout.strip()
    with zipfile.ZipFile(tmp_path / name) as wheel:
        wheel.extractall(tmp_path / "site")
    told = ran("-c", f"import site; site.addsitedir({str(tmp_path / 'site')!r}){ASKED}")
    assert told.stdout.split() == ["50", f"{checkout}/python/rrcache/__init__.py",
                                   f"{checkout}/build/librrcache.so", VERSION]


def test_where_the_library_is(checkout, tmp_path):
    """The environment names it, else it is beside the modules, else in the repository, else the
    system's loader finds it."""
    beside = checkout / "python" / "rrcache" / "librrcache.so"
    built = checkout / "build" / "librrcache.so"
    code = "import rrcache.library; print(rrcache.library.path())"

    def found(**more):
        return ran("-c", code, PYTHONPATH=str(checkout / "python"), **more).stdout.strip()
    shutil.copyfile(built, beside)
    assert found(RRCACHE_LIBRARY="/tmp/named.so") == "/tmp/named.so"
    assert found() == str(beside)
    beside.unlink()
    assert found() == str(built)
    built.unlink()
    assert found() == SONAME


def test_one_version_of_python_and_c():
    assert rrcache.__version__ == ".".join(map(str, rrcache.library_version())) == VERSION
