# SPDX-License-Identifier: MIT
"""A release that bin/dist makes of what is built."""
import subprocess

import pytest

from tests.conftest import PROGRAM, TOP
from tests.install.places import said
from tools.dist import modules

# What is for another machine is tested if it was made, which takes the kit minutes.
collect_ignore = [] if (TOP / modules.assembler(modules.OTHER)).exists() else ["test_aarch64.py"]


@pytest.fixture(scope="session")
def release(library, tmp_path_factory):
    """The folder of a release."""
    if not PROGRAM.exists():
        pytest.skip(f"there is no {PROGRAM}: bin/build builds the program")
    folder = tmp_path_factory.mktemp("release")
    said(TOP / "bin" / "dist", "--to", folder)
    return folder


def root_of(archive, folder):
    """The one folder that an archive of the release has, unpacked in another folder."""
    subprocess.run(["tar", "-xzf", archive, "-C", folder], check=True)
    [root] = folder.iterdir()
    return root


@pytest.fixture(scope="session")
def unpacked(release, tmp_path_factory):
    """What the archive of compiled files has."""
    [archive] = release.glob("*-x86_64-linux.tar.gz")
    return root_of(archive, tmp_path_factory.mktemp("unpacked"))


@pytest.fixture(scope="session")
def crate(release, tmp_path_factory):
    """What the archive of the Rust crate has."""
    [archive] = release.glob("*-rust.tar.gz")
    return root_of(archive, tmp_path_factory.mktemp("crate"))
