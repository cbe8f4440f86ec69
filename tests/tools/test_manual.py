# SPDX-License-Identifier: MIT
"""Tests of the man pages of the commands, of those of whole headers, and of the completion in bash:
that they have what --help, the headers and the sources say."""
import os
import re
import shlex
import shutil
import subprocess

import pytest

from tests.tools.shared import OPTIONS, TOP, ran
from tools.command_manual import INSTALLED, commands
from tools.completion import completion
from tools.manual import command_pages, pages

PAGES = command_pages()
SECTIONS = ["NAME", "SYNOPSIS", "DESCRIPTION", "OPTIONS", "EXIT STATUS", "EXAMPLES", "SEE ALSO"]
HEADERS = ["rrcache", "rrcache_shelf"]
needs_man = pytest.mark.skipif(shutil.which("man") is None,
                               reason="there is no man here (bin/setup installs it)")


def sections(page):
    """The text of each section by its title, with no escapes and no fonts."""
    text = re.sub(r"\\f[BIR]|\\&", "", page).replace(r"\-", "-").replace(r"\(aq", "'")
    return dict(re.findall(r"^\.SH (.*)\n((?:(?!\.SH ).*\n)*)", text, re.M))


def options_in(text):
    """The options that a text names, short ones too."""
    return set(re.findall(r"(?<![\w-])--?[a-zA-Z][\w-]*", text))


def listed_options(page):
    """The options that the list of a page explains."""
    return options_in("\n".join(re.findall(r"^\.TP\n(.*)$", sections(page)["OPTIONS"], re.M)))


# ---- pages of commands


def test_each_installed_command_has_a_page():
    assert set(PAGES) == {"rrcache.1", "rrcache-forwarder.1",
                          *(f"rrcache-{it}.1" for it in INSTALLED)}


@needs_man
@pytest.mark.parametrize("name", PAGES)
def test_man_shows_a_page_without_a_warning(name, tmp_path):
    (tmp_path / name).write_text(PAGES[name])
    run = subprocess.run(["man", "--warnings", "-E", "UTF-8", "-l", "-Tutf8", "-Z", name],
                         cwd=tmp_path, capture_output=True, text=True)
    assert (run.returncode, run.stderr) == (0, "") and run.stdout


@needs_man
@pytest.mark.parametrize("name", PAGES)
def test_man_breaks_no_name_of_an_option(name, tmp_path):
    """In lines of 80 columns, as on a terminal."""
    (tmp_path / name).write_text(PAGES[name])
    run = subprocess.run(["man", "-E", "UTF-8", "-l", name], cwd=tmp_path, capture_output=True,
                         text=True, env={**os.environ, "MANWIDTH": "80", "MAN_KEEP_FORMATTING": ""})
    assert listed_options(PAGES[name]) <= options_in(run.stdout)
    assert max(map(len, run.stdout.splitlines())) <= 110 and "\N{HYPHEN}\n" not in run.stdout


@pytest.mark.parametrize("name", PAGES)
def test_a_page_has_all_sections(name):
    found = sections(PAGES[name])
    assert [it for it in found if it in SECTIONS] == SECTIONS
    assert not [it for it in SECTIONS if not found[it].strip()]
    assert re.fullmatch(rf"{name[:-2]} - [a-z].*[^.]\n", found["NAME"])
    assert re.findall(r"^\.TP\n([012])$", found["EXIT STATUS"], re.M) == ["0", "1", "2"]
    assert all(f".BR {it[:-2]} (1)" in found["SEE ALSO"] for it in PAGES if it != name)


@pytest.mark.parametrize("name", INSTALLED)
def test_a_page_has_what_help_says(name):
    """All of its words, in their order, but for the command's name and how options are laid out."""
    told, found = ran(f"bin/{name}", "--help").stdout, sections(PAGES[f"rrcache-{name}.1"])
    described, _, listed = told.partition("\n\n")[2].partition("\npositional arguments:\n")
    described = described.partition("\nExamples:\n")[0].partition("\n")[2]
    assert listed_options(PAGES[f"rrcache-{name}.1"]) == options_in(
        "\n".join(re.findall(r"^  (-.*?)(?:  |$)", listed, re.M)))

    def words(text):
        return re.sub(r"^\.\w+$|`", "", text, flags=re.M).split()
    assert words(found["DESCRIPTION"]) == words(described)
    helped = " ".join(words(listed))
    texts = re.findall(r"^\.TP\n.*\n((?:(?!\.).*\n)+)", found["OPTIONS"], re.M)
    assert [it for it in texts if " ".join(it.split()) not in helped] == []


def test_the_page_of_the_program_has_the_options_of_the_document_and_of_its_help():
    """The command tells them before the program is built."""
    listed = sections(PAGES["rrcache.1"])["OPTIONS"]
    for name, (least, most, usual) in OPTIONS.items():
        values = rf"{least} to {most:,} \(default: {usual}\)"
        assert re.search(rf"^--{name} N\n.*: {values}$", listed, re.M), name
    usage = (TOP / "bin" / "rrcache").read_text().partition("options:\n")[2].partition("END")[0]
    assert listed_options(PAGES["rrcache.1"]) == options_in(
        "\n".join(re.findall(r"^  (-.*?)  ", usage, re.M)))


def test_the_page_of_the_program_has_the_options_of_the_program(program):
    told = subprocess.run([program, "--help"], capture_output=True, text=True).stdout
    names = options_in("\n".join(re.findall(r"^ +(-.*?)(?:  |$)", told, re.M)))
    assert names and listed_options(PAGES["rrcache.1"]) == names


def test_the_page_of_the_program_has_each_line_of_a_trace():
    found = sections(PAGES["rrcache.1"])
    for word in ("put", "ask", "response", "fail", "fetch", "sweep", "checkpoint"):
        for title in ("TRACES", "REPORTS"):
            assert re.search(rf"^\.TP\n{word}\b", found[title], re.M), (title, word)


def test_the_page_of_the_forwarder_has_the_options_that_it_reads():
    sources = (TOP / "examples" / "forwarder").glob("*.c")
    source = "".join(it.read_text() for it in sources)
    letters = re.search(r'getopt_long\([^"]*"([^"]*)"', source)[1]
    names = {f"-{it}" for it in letters if it.isalpha()}
    names |= {f"--{it}" for it in re.findall(r'\{"([\w-]+)", (?:no|required)_argument', source)}
    assert listed_options(PAGES["rrcache-forwarder.1"]) == names | {"-h", "-V"}


@pytest.mark.parametrize("name", INSTALLED)
def test_the_examples_are_words_that_the_command_takes(name):
    command = next(it for it in commands() if it.name == f"rrcache-{name}")
    shown = re.findall(r"^\.nf\n(.*)\n\.fi", sections(PAGES[f"rrcache-{name}.1"])["EXAMPLES"], re.M)
    for line in shown:
        first, *words = shlex.split(re.sub(r"\$\(.*?\)", "FILES", line.partition(" > ")[0]))
        assert first == command.name and command.reader.parse_args(words)
    assert len(shown) > 1


# ---- pages of headers


@pytest.mark.parametrize("header", HEADERS)
def test_the_page_of_a_header_declares_each_call(header):
    """Inline functions without a page of their own are no calls (tests/install)."""
    found = sections(pages()[f"{header}.3"])
    text = (TOP / "include" / f"{header}.h").read_text()
    declared = re.findall(r"^RRCACHE_API [^;]*?\b(rrcache_\w+)\(" if header == "rrcache" else
                          r"^static inline (?:enum rrcache_status|uint32_t|const char \*)\s*"
                          r"(rrcache_(?!can_)\w+)\(", text, re.M)
    assert len(declared) > 10
    assert re.findall(r"\b(rrcache_\w+)\(", found["SYNOPSIS"]) == declared
    assert found["SYNOPSIS"].count(";\n") == len(declared)


@pytest.mark.parametrize("header", HEADERS)
def test_the_page_of_a_header_has_each_status(header):
    text = (TOP / "include" / "rrcache_shelf.h").read_text()
    enum = text.partition("enum rrcache_status {")[2].partition("};")[0]
    statuses = re.findall(r"^    (RRCACHE_\w+) = (\d+)", enum, re.M)
    returned = sections(pages()[f"{header}.3"])["RETURN VALUE"]
    assert len(statuses) > 20 and statuses[0] == ("RRCACHE_DONE", "0")
    assert re.findall(r"(RRCACHE_\w+) \((\d+)\)", returned) == statuses


@pytest.mark.parametrize("page, said", [
    ("rrcache.3", ["rrcache_close returns nothing", "rrcache_next returns true or false"]),
    ("rrcache_open.3", ["A status, which is RRCACHE_DONE (0)", "rrcache_close returns nothing"]),
    ("rrcache_lookup.3", ["A status", "rrcache_next returns true or false"]),
    ("rrcache_fault.3", ["A status", "rrcache_version returns a number",
                         "rrcache_status_text returns a text"])])
def test_a_page_says_what_calls_return(page, said):
    returned = " ".join(sections(pages()[page])["RETURN VALUE"].split())
    assert [it for it in said if it not in returned] == []


# ---- completion in bash


def completed(*words):
    """What bash offers for the last of the words of a command."""
    script = ('source /dev/stdin; COMP_WORDS=("$@"); COMP_CWORD=$(($# - 1)); COMPREPLY=();'
              ' _rrcache; printf "%s\\n" "${COMPREPLY[@]}"')
    run = subprocess.run(["bash", "--norc", "-c", script, "bash", *words], input=completion(),
                         capture_output=True, text=True)
    assert (run.returncode, run.stderr) == (0, "")
    return run.stdout.split()


@pytest.mark.parametrize("words, wanted", [
    ("rrcache --c", "--capacity --chapter"),
    ("/usr/bin/rrcache --audit", "--audit --audit-history"),
    ("rrcache-what-if --capacity 5 --by o", "octets"),
    # bash has the = as a word of its own
    ("rrcache-what-if --by = o", "octets"), ("rrcache-from-capture --mode =", "failed now timer"),
    ("rrcache-from-capture a.pcap --mode t", "timer"),
    ("rrcache-why 5 trace --js", "--json"), ("rrcache-forwarder -t", "-t"),
    # a number, and what is no option, for which bash has the names of files
    ("rrcache --capacity 1", ""), ("rrcache-what-if tr", ""), ("rrcache-what-if --svg a", "")])
def test_bash_completes_options_and_their_values(words, wanted):
    assert completed(*words.split()) == wanted.split()


@pytest.mark.parametrize("name", INSTALLED)
def test_bash_completes_all_options_of_help(name):
    page = PAGES[f"rrcache-{name}.1"]
    assert set(completed(f"rrcache-{name}", "-")) == listed_options(page)


def test_bash_knows_each_command():
    run = subprocess.run(["bash", "--norc", "-c", "source /dev/stdin; complete -p"],
                         input=completion(), capture_output=True, text=True)
    assert {it.split()[-1] for it in run.stdout.splitlines()} == {it[:-2] for it in PAGES}
    assert "-o default" in run.stdout
