# SPDX-License-Identifier: MIT
"""The page that bin/build-page makes, in Chromium: what the module in it answers, by the rows and
by the model of the rules, and what the page shows."""
import base64
import io
import re
import subprocess
import urllib.parse

import pytest

from tests.page import browser
from tests.page.spans import spans_of
from tools.archive import Rules, archive_of
from tools.rows import content, options_of, rows, traces_of
from tools.traces import lines_in, report

pytestmark = [
    pytest.mark.skipif(browser.chromium() is None,
                       reason="there is no chromium here (bin/setup installs it)"),
    pytest.mark.usefixtures("page"),
]
USUAL = {"parts": 1, "capacity": 1024, "chapter": 4096, "stale": 86400}
# What rows are given that changes no report of one worker.
WITHOUT_EFFECT = {"--audit", "--progress"}
PICTURE_OCTETS = 200_000
# Calls an export on each trace, repeated, and answers the text or the fault of each.
CALLS = """
const octets = (it) => Uint8Array.from(atob(it), (char) => char.charCodeAt(0));
const repeated = (it, count) => {
  const all = new Uint8Array(it.length * count);
  for (let place = 0; place < count; place += 1) all.set(it, place * it.length);
  return all;
};
const latin = (it) => Array.from(it, (octet) => String.fromCharCode(octet)).join('');
return GIVEN.map(({ name, trace, repeat, options, pages }) => {
  const got = ask(proved, name, repeated(octets(trace), repeat ?? 1), options, pages);
  return got.octets ? { text: latin(got.octets) } : got;
});
"""


def call(name, trace, repeat=1, **more):
    """A call of the module, as CALLS takes it."""
    pages = {"pages": more.pop("pages")} if "pages" in more else {}
    return {"name": f"rrc_page_{name}", "trace": base64.b64encode(trace).decode(),
            "repeat": repeat, "options": {**USUAL, **more}, **pages}


# ---- the rows

def options_for(row):
    """The options of a row for the page, or None where its words ask for more."""
    words, found = content(row, "args").decode("latin-1").replace("=", "\n").split(), {}
    while words:
        name = words.pop(0)
        value = "" if name in WITHOUT_EFFECT else words.pop(0)
        if name.removeprefix("--") in USUAL:
            found[name.removeprefix("--")] = int(value)
        elif value and (name, value) != ("--workers", "1"):
            return None
    return found


def runs_here(row):
    """Whether a page can run a row: one worker, and no words that the program refuses."""
    return content(row, "status", b"0").strip() in (b"0", b"1") and options_for(row) is not None


ROWS = {name: row for name, row in rows().items() if runs_here(row)}


def calls_of(row):
    if (row / "each").exists():
        return [call("report", it, **options_for(row)) for it in traces_of(row)]
    repeat = int(content(row, "repeat", b"1"))
    return [call("report", content(row, "trace"), repeat, **options_for(row))]


@pytest.fixture(scope="module")
def answers(tmp_path_factory):
    """What the page tells of the traces of each row."""
    asked = {name: calls_of(row) for name, row in ROWS.items()}
    told = iter(browser.evaluated(tmp_path_factory.mktemp("rows"), CALLS,
                                  [it for calls in asked.values() for it in calls]))
    return {name: [next(told) for _ in calls] for name, calls in asked.items()}


def test_most_rows_can_be_run():
    assert len(ROWS) > 180


@pytest.mark.parametrize("name", ROWS)
def test_row(name, answers):
    row = ROWS[name]
    for told in answers[name]:
        if content(row, "status", b"0").strip() == b"0":
            assert told.get("text") == content(row, "report").decode("latin-1")
        else:
            assert f"rrcache: {told['fault']}\n" == content(row, "stderr").decode()


# ---- the histories, by the model

def lines_of(row):
    return lines_in(io.BytesIO(content(row, "trace")))


def rules_of(row):
    return Rules(**{"chapter": 1 << 20, **options_of(row)})


def events_by_model(row):
    """The lines of the events that the model makes of a row's trace, on one part."""
    lines = archive_of(lines_of(row), rules_of(row)).splitlines()
    return [it for it in lines if it.split()[0] in ("offer", "ask", "sweep")]


def is_small(row):
    return (not (row / "each").exists() and not (row / "repeat").exists()
            and content(row, "status", b"0").strip() == b"0" and "parts" not in options_of(row))


def test_histories_are_those_of_the_model(tmp_path):
    small = [row for row in ROWS.values() if is_small(row)]
    told = browser.evaluated(tmp_path, CALLS, [
        call("histories", content(row, "trace"), **options_for(row)) for row in small])
    assert len(small) > 100
    for row, it in zip(small, told):
        head, *events = it["text"].splitlines()
        assert re.fullmatch(r"chapter 1 0 \d+ \d+ \d+", head)
        assert (row.name, events) == (row.name, events_by_model(row))


# ---- the spans, by the model and by hand

def test_spans_are_those_of_the_model(tmp_path):
    small = [row for row in ROWS.values() if is_small(row)]
    told = browser.evaluated(tmp_path, CALLS, [
        call("spans", content(row, "trace"), **options_for(row)) for row in small])
    words = " ".join(it["text"] for it in told).split()
    for it in ("set", "nodata", "nxdomain", "failed", "replaced", "cleared", "evicted", "swept"):
        assert it in words, f"no row has a span with {it}"
    for row, it in zip(small, told):
        spans = spans_of(lines_of(row), rules_of(row))
        assert (row.name, it["text"].splitlines()) == (row.name, spans)


def test_spans_of_a_trace(tmp_path):
    trace = (b"put 100 a.example. 1 4 60 c0000201\n"
             b"fail 110 b.example. 1\n"
             b"put 120 a.example. 1 4 30 c0000202\n"
             b"ask 130 a.example. 1 any now\n"
             b"put 140 c.example. 1 2 10 c0000203\n"
             b"put 141 c.example. 1 2 0 c0000203\n"
             b"put 142 d.example. 16/3 1 1 0161\n"
             b"sweep 153\n"
             b"put 154 a.example. 1 4 5 c0000205\n")
    told, = browser.evaluated(tmp_path, CALLS, [call("spans", trace, capacity=2, stale=10)])
    assert told["text"].splitlines() == [
        "span set 0 0 0 100 a.example. 1 160 170 replaced 2 2 0 120",
        "span failed 1 1 0 110 b.example. failed1 140 140 evicted 4 4 0 140",
        "span set 2 2 0 120 a.example. 1 150 160 replaced 8 8 0 154",
        "span set 4 4 0 140 c.example. 1 150 160 cleared 5 5 0 141",
        "span set 6 6 0 142 d.example. 16/3 143 153 swept 7 7 0 153",
        "span set 8 8 0 154 a.example. 1 159 169",
    ]


# ---- large traces, and little memory

def trace_of(lines, names=1000):
    """A trace of so many lines, of puts and asks by turns."""
    texts = (f"put {it} n{it // 2 % names}.example. 1 {1 + it % 4} 600 c0000201" if it % 2 == 0 else
             f"ask {it} n{it // 2 % names}.example. 1 any now" for it in range(lines))
    return "".join(f"{it}\n" for it in texts).encode()


def by_model(trace):
    return "".join(f"{it}\n" for it in report(lines_in(io.BytesIO(trace))))


@pytest.mark.alone
def test_100000_lines_take_seconds(tmp_path):
    trace = trace_of(100_000)
    code = f"const began = performance.now(); const told = (() => {{ {CALLS} }})();" \
           " return { told, seconds: (performance.now() - began) / 1000 };"
    wanted = by_model(trace)
    for _ in range(3):  # the machine may do much else
        got = browser.evaluated(tmp_path, code, [call("report", trace)])
        assert got["told"][0]["text"] == wanted
        if got["seconds"] < 10:
            return
    pytest.fail(f"{got['seconds']} seconds")


@pytest.mark.alone
def test_spans_of_many_keys_take_a_few_reports(tmp_path):
    # No key is held again, and each is evicted after 1,024 others: a span is as long as can be.
    trace = trace_of(50_000, names=25_000)
    code = "return GIVEN.map(({ name, trace, options }) => { const octets = Uint8Array.from(" \
           "atob(trace), (it) => it.charCodeAt(0)); const began = performance.now();" \
           " ask(proved, name, octets, options); return performance.now() - began; });"
    report, spans = browser.evaluated(tmp_path, code, [call("report", trace), call("spans", trace)])
    assert spans < 10 * report, f"{spans} ms, and {report} ms for the report"


def test_memory_that_runs_out_is_told(tmp_path):
    trace, pages = trace_of(6000), [*range(64, 224, 16), 4000]
    told = browser.evaluated(tmp_path, CALLS, [
        call(name, trace, pages=it) for name in ("report", "histories", "spans") for it in pages])
    assert {it["fault"] for it in told if "fault" in it} == {"out of memory"}
    assert told[len(pages) - 1]["text"] == by_model(trace)
    assert "text" in told[-1]


# ---- options, and texts that are no trace

def test_an_option_beyond_its_range_is_told(tmp_path):
    beyond = [("parts", 0), ("parts", 65), ("capacity", 0), ("capacity", 65_537), ("chapter", 0),
              ("chapter", 1_048_577), ("stale", 604_801)]
    told = browser.evaluated(tmp_path, CALLS, [call("report", b"", **{name: value})
                                               for name, value in beyond])
    assert told == [{"fault": "an option is out of range", "line": None}] * len(beyond)


def test_a_fault_is_told_with_its_line(tmp_path):
    told = browser.evaluated(tmp_path, CALLS, [
        call("report", b"sweep 1\nsweep 2\nsweep x\nsweep y\n"), call("report", b"\n")])
    assert told == [{"fault": f"line {it} is not a line of a trace", "line": it} for it in (2, 0)]


# ---- what the page shows

SHOWN = """
const text = (id) => element(id).textContent;
return { report: text('report'), fault: element('fault').hidden ? null : text('fault-text'),
  offers: [...document.querySelectorAll('#offers tr')].map((row) =>
    [...row.cells].map((it) => it.textContent)),
  items: [...document.querySelectorAll('#picture .item')].map((it) =>
    it.getAttribute('aria-label')), about: text('about') };
"""
FIRST = content(rows()["first-trace"], "trace").decode()


def link(trace, **options):
    return "#" + urllib.parse.urlencode({**options, "trace": trace})


def test_page_opens_with_an_example(tmp_path):
    shown = browser.evaluated(tmp_path, SHOWN)
    assert shown["report"] == content(rows()["first-trace"], "report").decode()
    assert shown["fault"] is None
    assert shown["offers"][0] == ["0", "100", "www.example.", "A", "4", "60",
                                  "192.0.2.1, 192.0.2.2", "stored"]
    assert shown["offers"][1][-1] == "outranked"
    assert shown["items"][0] == (
        "www.example. A: RRset of rank 4, stored at 100 by line 0, TTL 60, fresh before 160, stale "
        "before 86560. replaced at 160 by line 3. 192.0.2.1, 192.0.2.2")


def test_every_example_is_run(tmp_path):
    code = f"return examples.map((_, it) => {{ showExample(it); {SHOWN} }});"
    shown = browser.evaluated(tmp_path, code)
    assert [it["fault"] for it in shown] == [None] * len(shown)
    assert all(it["items"] and it["about"] for it in shown)


def test_a_link_carries_trace_and_options(tmp_path):
    trace = "put 10 a.example. 1 4 60 c0000201\nput 11 b.example. 1 4 60 c0000202\n"
    shown = browser.evaluated(tmp_path, SHOWN, fragment=link(trace, capacity=1))
    assert shown["report"] == "0 put kept\n1 put kept-out:a.example./1\n"
    assert "evicted at 11 by line 1" in shown["items"][0]


def test_a_copied_link_opens_as_it_was(tmp_path):
    code = "element('stale').value = 7; copyLink(); return location.hash;"
    words = dict(urllib.parse.parse_qsl(browser.evaluated(tmp_path, code)[1:]))
    assert words == {"parts": "1", "capacity": "1024", "chapter": "4096", "stale": "7",
                     "trace": FIRST}


def test_what_stands_in_a_link_is_no_page(tmp_path):
    shown = browser.evaluated(tmp_path, SHOWN, fragment=link("<img src=x onerror=alert(1)>\n"))
    assert shown["fault"] == "line 0 is not a line of a trace"


def test_a_fault_is_shown_and_goes_again(tmp_path):
    code = """
    const shown = () => ({ hidden: element('results').hidden, line: element('go').dataset.line,
      invalid: element('trace').getAttribute('aria-invalid') });
    const right = element('trace').value;
    element('trace').value = `${right}ask\\n`; run();
    const wrong = shown();
    element('go').click();
    const { selectionStart, selectionEnd } = element('trace');
    const picked = element('trace').value.slice(selectionStart, selectionEnd);
    element('trace').value = right; run();
    return { wrong, picked, again: shown() };
    """
    shown = browser.evaluated(tmp_path, code)
    assert shown["wrong"] == {"hidden": True, "line": "5", "invalid": "true"}
    assert shown["picked"] == "ask"
    assert shown["again"]["hidden"] is False


def test_the_picture_is_read_by_keyboard(tmp_path):
    code = """
    const press = (key) => document.activeElement.dispatchEvent(
      new KeyboardEvent('keydown', { key, bubbles: true, cancelable: true }));
    const first = document.querySelector('#picture [tabindex="0"]');
    first.focus(); press('ArrowRight');
    const second = document.activeElement.getAttribute('aria-label');
    const told = element('told').textContent;
    press('Enter');
    const trace = element('trace');
    return { same: told === second, second, stops: document.querySelectorAll(
      '#picture [tabindex="0"]').length, at: document.activeElement.id,
      picked: trace.value.slice(trace.selectionStart, trace.selectionEnd) };
    """
    shown = browser.evaluated(tmp_path, code)
    assert shown["same"] and shown["stops"] == 1
    assert shown["second"].startswith("www.example. A: RRset of rank 1, stored at 160")
    assert (shown["at"], shown["picked"]) == ("trace", "put 160 www.example. 1 1 60 c0000203")


@pytest.mark.parametrize("width", [412, 1600])
def test_no_page_is_wider_than_its_window(width, tmp_path):
    code = "return [document.documentElement.scrollWidth, innerWidth];"
    wide = link(content(rows()["real-no-such-name-signed"], "trace").decode())
    needed, had = browser.evaluated(tmp_path, code, None, wide, f"--window-size={width},900")
    assert needed <= had


def test_how_many_offers_are_left_out_is_told(tmp_path):
    code = """
    const offer = { line: 0, moment: 1, key: { name: 'a.', slot: '1' }, kind: 'failure', ttl: 30,
      outcome: 'kept' };
    return [2000, 2003].map((it) => {
      showOffers(Array(it).fill(offer));
      return [element('offers').rows.length, element('offers-left').textContent];
    });
    """
    assert browser.evaluated(tmp_path, code) == [[2000, ""], [2000, "and 3 more offers"]]


def test_events_of_several_parts_are_in_the_order_of_the_trace(tmp_path):
    # docs/FORMATS.md, "Archives": the place of an event is that of its operation in the line. Each
    # part has a history, and the events of a line may be in several of them.
    first = ["chapter 1 0 1024 4096 86400",
             "offer 0 2 100 c.example. 1 set 4 60 c.example. c0000203 kept",
             "offer 0 10 100 d.example. 1 set 4 60 d.example. c0000204 kept",
             "ask 1 0 101 c.example. 1 any none fresh 59 c.example. c0000203"]
    second = ["chapter 1 0 1024 4096 86400",
              "offer 0 0 100 a.example. 1 set 4 60 a.example. c0000201 kept",
              "offer 0 9 100 b.example. 1 failure 30 kept",
              "offer 2 0 102 a.example. 1 set 4 60 a.example. c0000205 kept"]
    code = "const { offers, keys } = livesOf(GIVEN, ''); return [offers.map((it) =>" \
           " `${it.line} ${it.key.name}`), [...keys.values()].map((it) => it.name)];"
    names = [f"{it}.example." for it in "acbd"]
    for parts in (first + second, second + first):
        got = browser.evaluated(tmp_path, code, "".join(f"{it}\n" for it in parts))
        assert got == [[*(f"0 {it}" for it in names), "2 a.example."], names]


def test_rdata_in_presentation_form(tmp_path):
    # RFC 5952 for the address, RFC 3597 section 5 for a type that the page does not read.
    cases = [[1, "c0000201", "192.0.2.1"], [28, "20010db8000000000000000000000001", "2001:db8::1"],
             [2, "026e73076578616d706c6500", "ns.example."], [2, "03612e6200", "a\\.b."],
             [15, "000a046d61696c00", "10 mail."], [16, "0361206203225c00", '"a b" "\\"\\\\\\000"'],
             [33, "000100020035026e7300", "1 2 53 ns."], [99, "00ff", "\\# 2 00ff"],
             [99, "-", "\\# 0"],
             [6, "00000000000100000002000000030000000400000005", ". . 1 2 3 4 5"]]
    got = browser.evaluated(tmp_path, "return GIVEN.map(([type, hex]) => rdataText(type, hex));",
                            cases)
    assert got == [it[2] for it in cases]


def test_rdata_without_the_form_of_their_type_are_shown_as_octets(tmp_path):
    # RFC 1035 sections 2.3.4, 3.3.14 and 3.4.1, RFC 3596 section 2.2: octets are missing or left
    # over, a text has no string, and a label has more than 63 octets or a name more than 255.
    label, long_label = "3f" + 63 * "61", "40" + 64 * "61"
    cases = [(1, "c0"), (1, "-"), (1, "c0000201ff"), (28, "00"), (28, 17 * "00"), (16, "05aa"),
             (16, "-"), (16, "016101"), (39, "c00c"), (39, "-"), (39, "0161"), (39, "016100ff"),
             (39, f"{long_label}00"), (39, 3 * label + "3e" + 62 * "61" + "00"), (15, "000a"),
             (6, "0000000000010000000200000003000000040000"), (33, "00010002003500ff")]
    shown = [f"\\# {len(hex) // 2} {hex}" if hex != "-" else "\\# 0" for _, hex in cases]
    whole = [(39, f"{label}00", f"{63 * 'a'}."), (16, "00", '""'),
             (39, 3 * label + "3d" + 61 * "61" + "00", 3 * f"{63 * 'a'}." + f"{61 * 'a'}.")]
    got = browser.evaluated(tmp_path, "return GIVEN.map(([type, hex]) => rdataText(type, hex));",
                            [*cases, *(it[:2] for it in whole)])
    assert got == [*shown, *(it[2] for it in whole)]


@pytest.mark.parametrize("theme", browser.THEMES)
def test_a_picture_can_be_taken(theme, tmp_path):
    made = browser.picture(tmp_path, tmp_path / "page.png", theme).read_bytes()
    assert made.startswith(b"\x89PNG") and len(made) < PICTURE_OCTETS


def test_the_page_may_ask_for_nothing(tmp_path):
    code = """
    try { const asked = new XMLHttpRequest(); asked.open('GET', 'https://192.0.2.1/', false);
      asked.send(); return 'sent'; } catch (fault) { return fault.name; }
    """
    assert browser.evaluated(tmp_path, code) == "NetworkError"
    policy = re.search(r'Content-Security-Policy" content="(.*?)"', browser.PAGE.read_text(), re.S)
    assert policy[1].startswith("default-src 'none';")


def test_the_same_sources_give_the_same_page():
    before = browser.PAGE.read_bytes()
    subprocess.run([browser.TOP / "bin" / "build-page"], check=True, capture_output=True)
    assert browser.PAGE.read_bytes() == before
