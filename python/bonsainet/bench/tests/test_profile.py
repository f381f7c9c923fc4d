"""Functions are told with their shares of the samples."""
import shutil
from pathlib import Path

import pytest

from bonsainet.bench import profile
from bonsainet.bench.profile import CASES, KERNEL, case_of, plain, rows_of, sampled, shares_of, texts
from bonsainet.cli.command_line import Refused
from bonsainet.ask.native import native
from bonsainet.ask.program import Program
from bonsainet.tests.asking import place_of

REPORT = "# Overhead\n# ........\n\n   60        \t[.] grouping::coarsest_of\n  20\t[k] clear_page\n10\t[.] malloc\n10 \t[k] page_fault\n"


def test_the_kernel_is_one_row() -> None:
    assert shares_of(REPORT) == {"grouping::coarsest_of": 0.6, KERNEL: 0.3, "malloc, free": 0.1}
    with pytest.raises(Refused, match="no samples"):
        shares_of("# nothing\n")


def test_names_are_those_of_the_source() -> None:
    for symbol, name in (
        ("core::slice::sort::stable::deal::<#75be691b78e6ffb4>", "core::slice::sort::stable::deal"),
        (
            "core::cmp::RefSlicePartialEq::eq::<i8,31'core::cmp::numbers::U8PartialEq{}>",
            "core::cmp::RefSlicePartialEq::eq",
        ),
        ("__memmove_evex_unaligned_erms", "memmove"),
        ("__memcpy_avx_unaligned", "memmove"),
        ("_int_free", "malloc, free"),
        ("unlink_chunk.constprop.0", "malloc, free"),
        ("driver::grouping::coarsest_of", "driver::grouping::coarsest_of"),
    ):
        assert plain(symbol) == name


def test_shares_are_kept_as_they_are(tmp_path, monkeypatch) -> None:
    monkeypatch.setattr(profile, "KEPT", tmp_path / "profile.csv")
    rows = rows_of("summary", "bgp-ring", 1024, {"first": 0.75, "second": 0.25}, {"second": 0.5, "third": 0.5})
    profile.keep(rows, "two programs")
    text = profile.profile_text()
    assert text == "\n".join([*texts(rows), "", "Made with: two programs."]) + "\n"
    assert (
        "| `summary`, bgp-ring 1,024: function | before | after |" in text
        and "| `first` | 75.0 % | 0.0 % |" in text
        and "| `third` | 0.0 % | 50.0 % |" in text
    )


def test_cases_that_are_none_are_refused() -> None:
    assert [case_of(*case) for case in CASES] == list(CASES) and case_of("check", "bgp-ring", "8") == (
        "check",
        "bgp-ring",
        8,
    )
    for case, word in (
        (("trial", "bgp-ring", "8"), "trial"),
        (("check", "ring", "8"), "ring"),
        (("check", "bgp-ring", "few"), "few"),
    ):
        with pytest.raises(Refused, match=f"{word} is n"):
            case_of(*case)


def test_words_are_refused_before_the_first_sample(tmp_path, monkeypatch) -> None:
    program = tmp_path / "program"
    program.write_text("#!/bin/sh\n")
    program.chmod(0o755)
    monkeypatch.setattr("shutil.which", lambda name: name)
    monkeypatch.setattr(profile, "profiled", lambda *_case: pytest.fail("sampled"))
    for more in (["--named", "one"], ["--case", "classes", "ospf-ring", "8", "--case", "classes", "ring", "8"]):
        with pytest.raises(Refused):
            profile.work(profile.words().parse_args([str(program), str(program), *more]))


def test_the_file_of_a_command_is_its_own(monkeypatch) -> None:
    made = {"order": Path("order"), "labels": Path("labels")}
    monkeypatch.setattr(profile, "second_files", lambda *_more: made)
    seen: list[list[str]] = []

    def sampled(_program: Path, asked: list[str], _samples: Path) -> dict[str, float]:
        seen.append(asked[2:])
        return {}

    monkeypatch.setattr(profile, "sampled", sampled)
    profile.profiled([Path("a")], "check", "ospf-ring", 8)
    assert seen == [["1", "labels"]]
    del made["labels"]
    with pytest.raises(Refused, match="do not come to rest"):
        profile.profiled([Path("a")], "check", "ospf-ring", 8)
    profile.profiled([Path("a")], "groups", "ospf-ring", 8)
    assert seen[1:] == [["1"]]


def test_the_load_is_kept(tmp_path, monkeypatch, capsys) -> None:
    program = tmp_path / "program"
    program.write_text("#!/bin/sh\n")
    program.chmod(0o755)
    monkeypatch.setattr("shutil.which", lambda name: name)
    monkeypatch.setattr("os.getloadavg", iter([(2.0, 0, 0), (1.5, 0, 0)]).__next__)
    monkeypatch.setattr(profile, "KEPT", tmp_path / "profile.csv")
    monkeypatch.setattr(profile, "profiled", lambda *_case: [{"first": 1.0}] * 2)
    profile.work(
        profile.words().parse_args([str(program), str(program), "--keep", "--case", "classes", "ospf-ring", "8"])
    )
    assert profile.profile_text().endswith(", at a load of 1.5 to 2.0.\n") and capsys.readouterr().out


def test_a_program_is_sampled(tmp_path, monkeypatch) -> None:
    if not shutil.which("perf"):
        pytest.skip("the package linux-perf is not there")
    monkeypatch.setattr(profile, "SECONDS", 0.3)
    try:
        shares = sampled(native(Program()), ["classes", str(place_of("campus.cfg"))], tmp_path / "samples")
    except Refused as refused:
        pytest.skip(f"perf may not sample here: {refused}")
    assert sum(shares.values()) == pytest.approx(1) and any("::" in name for name in shares)
