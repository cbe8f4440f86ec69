# SPDX-License-Identifier: MIT
"""The list of contracts, docs/CONTRACTS-LIST.md, which tools/contracts.py writes.

It is up to date, it has the exports that the C header calls and what sources say by hand here, and
it begins with the preconditions of all calls in plain words.
"""
import re
from pathlib import Path

import pytest

from tools import contracts

TOP = Path(__file__).resolve().parents[2]
LIST, DEFINITIONS = ((TOP / "docs" / f"{it}.md").read_text()
                     for it in ("CONTRACTS-LIST", "DEFINITIONS"))
HEADER = (TOP / "include" / "rrcache_shelf.h").read_text()
# What a source says, read by hand.
SOURCE = """
ghost use Rattle.rrc_x.specs.Shapes.{IsRound, area};
ghost use Rattle.std.specs.Prelude.{length};

fn hidden(size: u64) -> u64
    ensures { result ≡ size }
{
    size
}

impl<'a> Shape<'a> {
    /// A ball.
    pub fn ball(size: u64) -> Shape
        requires some { 0 < size }
        ensures round { IsRound result }
        ensures { area result ≡ length size }
    {
        Shape { size }
    }

    pub(crate) fn inner(&self) -> u64 {
        self.size
    }
}

impl Clone for Shape {
    fn clone(&self) -> Shape {
        Shape { size: self.size }
    }
}

pub trait Rolls {
    /// How far it rolls.
    fn roll(&mut self, size: u64) -> u64
        requires { size < length self.old }
        ensures far { result ≡ area size };

    fn stop(&mut self);
}
"""


def entries():
    """The entries of the list, each in one line, with the crate or other title above them."""
    for part in LIST.split("\n## ")[1:]:
        title, _, text = part.partition("\n")
        for entry in re.findall(r"^- (.*(?:\n  .*)*)", text, re.M):
            yield title.strip("`"), re.sub(r"\n  ", " ", entry)


def test_list_is_up_to_date():
    assert contracts.text_of_list() == LIST, "run tools/contracts.py"


def test_a_source_by_hand():
    hidden, ball, clone, roll, stop = contracts.calls("shape.rt", SOURCE)
    assert not hidden.is_public and not clone.is_public and not stop.is_public
    assert ball.is_public and ball.owner == "Shape"
    assert contracts.line_of(ball) == ("- `Shape::ball`: *requires* `some`; *ensures* `round` "
                                       "(`IsRound`), unnamed (`area`)")
    assert roll.is_public
    assert contracts.line_of(roll) == ("- `Rolls::roll`: *requires* unnamed; *ensures* `far` "
                                       "(`area`)")


@pytest.mark.parametrize("crate, entry", [
    ("rrc_cache", "`Part::offer`: *ensures* `ok` (`WritesOffer`), `err`, `due` (`IsDue`)"),
    ("rrc_name", "`part_of`: *requires* `some`, `few`; *ensures* `value` (`part_of`), `below`"),
    ("rrc_replay", "`replay`: *ensures* `collated` (`IsCollated`), `err` (`IsOfReplay`)"),
    ("rrc_sets", "`offers`: *ensures* `ok` (`offers_of`), `moments`, `kept` (`IsOfRecords`), "
                 "`err`"),
])
def test_entries_by_hand(crate, entry):
    assert (crate, entry) in set(entries())


def test_exports_are_those_of_the_header():
    declared = set(re.findall(r"\b(rrc_\w+)\([^;{]*\);", HEADER)) - {"rrc_version"}
    listed = {re.match(r"`(\w+)`", entry)[1] for crate, entry in entries() if crate == "rrc_c"}
    assert listed == declared


@pytest.mark.parametrize("item", [
    "there is at least one part (`1 ≤ parts`): `rrc_name::part_of`, `SharedCache::new`, "
    "`SharedCache::seeded`",
    "the pass has a turn left (`0 < pass.old.view.turns`): `Marks::draw`",
    "the part is below the number of parts of the cache (`part < count self.old`): "
    "`Calls::sweep_part`, `Calls::close_part`",
])
def test_preconditions_by_hand(item):
    assert item in {entry for title, entry in entries() if title == "Preconditions"}


def test_each_call_with_a_precondition_is_among_the_preconditions():
    """By its last name. No other call is, and each meaning is that of some precondition."""
    listed = {re.search(r"(\w+)`", entry)[1] for _, entry in entries() if "*requires*" in entry}
    items = [entry for title, entry in entries() if title == "Preconditions"]
    calls = [re.findall(r"`[\w:]*?(\w+)`", entry.rpartition("): ")[2]) for entry in items]
    assert {name for names in calls for name in names} == listed
    assert {entry.partition(" (`")[0] for entry in items} == set(contracts.MEANINGS.values())


def test_a_precondition_without_a_meaning_is_refused():
    with pytest.raises(SystemExit, match="MEANINGS lacks the precondition"):
        contracts.meaning("2 ≤ self.now.turns")


def test_each_definition_that_a_contract_cites_is_in_a_file_of_the_definitions():
    """By the imports of each source. What stands below `declared` is a type of the code."""
    imports = re.compile(r"ghost use Rattle\.(rrc_\w+)\.specs\.([\w.]+?)\.\{([^}]*)\};")
    missing = set()
    for crate in contracts.crates():
        for call in contracts.public_calls(crate):
            text = (TOP / "crates" / crate / "src" / call.file).read_text()
            places = {name.strip(): f"{it[1]}/specs/{it[2].replace('.', '/')}.antt"
                      for it in imports.finditer(text) for name in it[3].split(",")}
            cited = {name for clause in call.requires + call.ensures for name in clause.cited}
            missing |= {places[name] for name in cited if f"`{places[name]}`" not in DEFINITIONS}
    assert {it for it in missing if "/declared/" not in it} == set()
