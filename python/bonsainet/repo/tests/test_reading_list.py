"""`dev/reading-list`: definitions, types, clauses and names of the kit, each counted once."""
from __future__ import annotations

from pathlib import Path

import pytest

from bonsainet.cli.command_line import Refused
from bonsainet.repo import reading_list, rust_types
from bonsainet.repo.definitions import Declared, declared_of, definitions_of, imports_of, spec_of

SPEC = """-- a comment
use Rattle.std.specs.Prelude.{ℕ}

-- how many
abbrev pub count : ℕ → ℕ
count zero = zero
count (suc n) = count n

pub record IsOne (n : ℕ) : Type 0 where
  -- it is
  pub one : n ≡ 1
"""
SOURCE = """//! A file.

/// A shape.
#[derive(Drop)]
pub enum Shape {
    /// With a side.
    Square(Length),
    Circle { radius: Length },
    Length,
}

pub struct Length(u32);

impl Model for Length {
    ghost Value = { ℕ };

    // A length is seen as its number.
    ghost view = { λ l. l.0 };
}
"""


def test_a_definition_is_its_lines_without_comments() -> None:
    assert definitions_of(SPEC) == {
        "count": ["abbrev pub count : ℕ → ℕ", "count zero = zero", "count (suc n) = count n"],
        "IsOne": ["pub record IsOne (n : ℕ) : Type 0 where", "  pub one : n ≡ 1"],
    }


def test_modules() -> None:
    crates = reading_list.CRATES
    assert spec_of("cfg_ast.specs.text.Reading") == crates / "cfg_ast/specs/text/Reading.antt"
    assert spec_of("std.specs.Prelude") is None and spec_of("cfg_ast.specs.declared.network.Network") is None
    place = Declared(crates / "srp_core/src/route.rt", "Act")
    assert declared_of("srp_core.specs.declared.route.Act.TheVariants") == place
    assert declared_of("std.specs.declared.cmp.Ordering") is None
    assert (
        imports_of("ghost use Rattle.cfg_ast.specs.text.Reading.{reading_of as read};\n")["read"].name == "reading_of"
    )


def test_types_have_their_fields_and_variants(tmp_path: Path, monkeypatch: pytest.MonkeyPatch) -> None:
    file = tmp_path / "shapes" / "src" / "shape.rt"
    file.parent.mkdir(parents=True)
    file.write_text(SOURCE, "utf-8")
    found = named_in(tmp_path, Declared(file, "Shape"), monkeypatch)
    assert [(it.name, len(it.lines), it.count) for it in found] == [("Shape", 5, 5), ("Length", 1, 5)]
    assert found[0].named() == ["Length", "Length"]


def named_in(crates: Path, start: Declared, monkeypatch: pytest.MonkeyPatch) -> list[rust_types.RustType]:
    monkeypatch.setattr(rust_types, "CRATES", crates)
    rust_types.types_everywhere.cache_clear()
    try:
        return rust_types.types_named([start])
    finally:
        rust_types.types_everywhere.cache_clear()


def test_a_type_of_several_crates_is_that_of_the_crate_it_is_used_from(
    tmp_path: Path, monkeypatch: pytest.MonkeyPatch
) -> None:
    texts = {"low": "pub struct Step(u32);\n", "high": "pub struct Step(u8, u8);\n"}
    whole = "use {0}::{{Plan, Step}};\n\npub struct Walk {{\n    pub first: Step,\n}}\n"
    for used, told in (("low", ["Walk", "Step"]), ("none", None)):
        for crate, text in {**texts, "walks": whole.format(used)}.items():
            (tmp_path / used / crate / "src").mkdir(parents=True)
            (tmp_path / used / crate / "src" / "lib.rt").write_text(text, "utf-8")
        walk = Declared(tmp_path / used / "walks" / "src" / "lib.rt", "Walk")
        if told is None:
            with pytest.raises(Refused, match="Step is a type of several crates"):
                named_in(tmp_path / used, walk, monkeypatch)
        else:
            found = named_in(tmp_path / used, walk, monkeypatch)
            assert [it.name for it in found] == told and found[1].lines == ("pub struct Step(u32);",)


def test_clauses() -> None:
    text = "fn f()\n    requires { a }\n    ensures one { b\n        c }\n    ensures other { d }\n{\n}\n"
    assert reading_list.clauses(text, "one") == "    ensures one { b\n        c }"
    assert len(reading_list.clauses(text).splitlines()) == 4


def test_the_headline_counts_types_clauses_and_the_kit() -> None:
    lines = reading_list.of_clause("headline", with_source=False)
    whole = [line for line in lines if " lines in all, with " in line]
    parts = [line for line in lines if line[:5].strip().isdigit() and ": " in line]
    assert len(whole) == 1 and sum(int(line[:5]) for line in parts) == int(whole[0][:5])
    assert any(line.endswith("bonsai_top/src/top.rt: the clause headline") for line in lines)
    assert any("cfg_ast/src/network.rt: " in line for line in lines) and any("≡" in line.split() for line in lines)


def test_a_clause_that_run_does_not_have() -> None:
    with pytest.raises(Refused, match="run has no clause nothing"):
        reading_list.of_clause("nothing", with_source=False)


def test_names_of_the_kit_are_listed_where_they_are_met_first(tmp_path: Path) -> None:
    spec = tmp_path / "Count.antt"
    spec.write_text(SPEC.replace("{ℕ}", "{ℕ, zip}"), "utf-8")
    here, kit = reading_list.File.of(spec), reading_list.KitNames({"ℕ"})
    assert kit.beyond([(here, ["count", "ℕ", "zip"])]) == ["       of the kit's specs, beyond these:", "       zip"]
    assert kit.beyond([(here, ["zip"])]) == []
