# SPDX-License-Identifier: MIT
"""On a Debian with no kit, no checkout and no network, the commands of docs/PACKAGES.md lead to a
program that runs, in C, in Python and in Rust, and from the sources to the library. They are typed
as the document has them, and what removes the library leaves nothing of it."""
import os
import re
import shutil
import subprocess
from pathlib import Path

import pytest

from tests.dist.clean_root import CleanRoot, typed
from tests.install.places import FIRST, TOP, said
from tests.rust.test_rust import pytestmark as has_cargo
from tools.dist import modules

# All that has the name of the kit or of the library, but for what was downloaded and what dpkg
# knows of its packages, to the depth at which packages have their files.
FIND = r"""find / -maxdepth 6 \( -path /dev -o -path /proc -o -path /root -o -path /var/lib/dpkg \
    \) -prune -o \( -name '*rattle*' -o -name '*rrcache*' -o -name rt \) -print"""
# Where a package has the examples, and what a package over the library says of itself.
EXAMPLES = "/usr/share/doc/librrcache-dev/examples"
CONTROL = "Source: resolver\n\nPackage: resolver\nArchitecture: any\n"
# A look-up of each of eight threads is of a name that it alone stores.
THREADS = """\
from concurrent.futures import ThreadPoolExecutor
from rrcache import SharedCache, Trust
cache = SharedCache()

def found(number):
    name, data = f"name-{number}.example.", [bytes([192, 0, 2, number])]
    cache.store_set(name, 1, Trust.AUTHORITATIVE_ANSWER, 3600, data)
    return sum(cache.lookup(name, 1).rrsets[0].data == (*data,) for _ in range(1000))

with ThreadPoolExecutor(8) as threads:
    print(*threads.map(found, range(8)))
"""


def needs(*packages):
    """Skips a test where these packages of Debian's are not installed."""
    told = subprocess.run(["dpkg-query", "--show", "--showformat=${Package} ${Status}\n",
                           *packages], capture_output=True, text=True)
    if missing := [it for it in packages if f"{it} install ok installed\n" not in told.stdout]:
        pytest.skip(f"there is no {', no '.join(missing)} here (bin/setup installs it)")


def traces(place):
    """What a root could leave behind: files in its place, mounts, packages of this machine."""
    return [*place.iterdir(), *Path("/usr").glob("lib/*/librrcache*"),
            *(it for it in Path("/proc/self/mountinfo").read_text().split() if str(place) in it)]


@pytest.fixture(scope="module")
def folder(tmp_path_factory):
    if os.geteuid() or not all(map(shutil.which, ("unshare", "dpkg-query", "apt-get"))):
        pytest.skip("only root of a Debian can mount a clean one")
    made = tmp_path_factory.mktemp("clean")
    if refusal := CleanRoot(made).refusal():
        pytest.skip(f"mounts are refused here: {refusal}")
    return made


@pytest.fixture
def clean(folder):
    """A root, which leaves nothing behind."""
    before = traces(folder)
    yield CleanRoot(folder)
    assert traces(folder) == before


@pytest.fixture
def packages(release):
    return [*release.glob("librrcache*_amd64.deb")]


def test_a_refusal_is_told(clean, tmp_path):
    assert "mount point does not exist" in CleanRoot(tmp_path / "nowhere").refusal()


def test_there_is_no_kit(clean):
    """Nor a checkout, a network, or anything else of this machine's own."""
    assert clean.said(FIND) == ""
    assert clean.said("find /opt /usr/local /home /root /srv /mnt /tmp -mindepth 1") == ""
    assert clean.said(f"command -v rt || ls -d {TOP} || echo neither") == "neither\n"
    assert re.findall(r"^ *(\w+):", clean.said("cat /proc/net/dev"), re.M) == ["lo"]


def test_c(clean, packages):
    """The library is there as packages have it and nowhere else, and goes with them."""
    needs("gcc", "pkg-config")
    told = clean.said(f"""{typed("cc /usr/share")}
{FIND} | sort > found
dpkg -L librrcache2 librrcache-dev | sort > listed
wc -l < found
comm -23 found listed
dpkg --verify librrcache2 librrcache-dev
{typed("apt-get purge")} > purged
{FIND}""", *packages)
    count = re.search(rf"^{FIRST}(\d+)\n\Z", told, re.M)
    assert count and int(count[1]) > 10, told


@pytest.mark.parametrize("example, words, version", [("first", "", "2.0.0"),
                                                     ("stub", "-lresolv", "2.1.0")])
def test_package_over_the_library(example, words, version, clean, packages):
    """Debian's tools have a package with a program of the library depend on the version that has
    its calls: those of shelves are of 2.0, those of the shared cache of 2.1."""
    needs("gcc", "pkg-config", "dpkg-dev")
    install, *_ = typed("cc /usr/share").splitlines()
    told = clean.said(f"""{install}
cc {EXAMPLES}/{example}.c $(pkg-config --cflags --libs rrcache) {words} -o program
mkdir debian && echo '{CONTROL}' > debian/control
dpkg-shlibdeps -O program""", *packages)
    assert f"librrcache2 (>= {version})" in told.splitlines()[-1], told


def test_python(clean, release):
    needs("python3-venv")
    told = clean.said(f"""{typed("venv/bin/python -c")}
venv/bin/python -c '{THREADS}'
venv/bin/pip uninstall --yes --quiet rrcache
find venv -name '*rrcache*'""", *release.glob("*.whl"))
    assert told.splitlines()[-2:] == [r"FRESH (b'\xc0\x00\x02\x01',)", " ".join(["1000"] * 8)]


@has_cargo
def test_rust(clean, release, packages):
    needs("gcc", "pkg-config")
    told = clean.said(typed("cargo run"), *packages, *release.glob("*-rust.tar.gz"),
                      toolchain=said("rustc", "--print", "sysroot").strip())
    assert re.search(r"^www\.example\. (3600|3599) IN A \\# 4 c0000201\n\Z", told, re.M), told


def test_sources(clean, release):
    """From the sources to the library and back."""
    needs("gcc", "make", "pkg-config", "python3")
    archives = [*release.glob("*-src.tar.gz")]
    if not archives:
        pytest.skip(f"there is no {modules.assembler()}: bin/build rrc_c makes it anew")
    told = clean.said(f"""{typed("bin/install-c /usr")}
cc examples/first.c $(pkg-config --cflags --libs rrcache) -o first
./first
bin/install-c --uninstall /usr/local > uninstalled
find /usr/local -mindepth 1""", *archives)
    assert told.endswith(f" /usr/local\n{FIRST}"), told
