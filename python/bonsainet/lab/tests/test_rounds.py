"""Rounds without routers: the table, the imports that are compared, the figures of pages, and what a lab refuses."""
import json
import shutil
from collections.abc import Mapping
from pathlib import Path

import pytest

from bonsainet.nets.campus import campus_text
from bonsainet.cli.command_line import Refused
from bonsainet.exporting import frr, tool
from bonsainet.lab import enclosure, figures, tools
from bonsainet.lab.imports import compare_imports, with_one_neighbor
from bonsainet.lab.lab import Case, Rested, Verdict, judge, tie_at
from bonsainet.lab.round_trip import Round, Run, carry_back, outcome, table
from bonsainet.ask.labels import BgpLabel, read_solution
from bonsainet.configs.network import read_network
from bonsainet.ask.program import TOP, Answer, Class, Program
from bonsainet.ask.where import Identity
from bonsainet.nets.random_networks import random_text
from bonsainet.exporting.tests.test_exporting import said_by_vtysh
from bonsainet.configs.text import read_text

TEXT = (TOP / "examples" / "inputs" / "two-routers.cfg").read_text()
CHAIN = "".join(
    f"hostname {name}\ninterface Serial0/0\n ip address 10.0.{place}.0 255.255.255.254\n"
    f"interface Serial0/1\n ip address 10.0.{(place + 1) % 3}.1 255.255.255.254\nrouter bgp {place + 1}\n"
    f" neighbor 10.0.{place}.1 remote-as {(place + 2) % 3 + 1}\n neighbor 10.0.{(place + 1) % 3}.0 remote-as {(place + 1) % 3 + 1}\nend\n"
    for place, name in enumerate("abc")
)
PREFIX = "10.9.0.0/24"
ORIGIN = BgpLabel(100, (), ())


def fake(answers: dict[str, Answer], asked: list | None = None) -> Program:
    """A program that gives the same answer to each question of a command."""

    class Fake(Program):
        def __init__(self) -> None:
            self.path = "none"
            self.identity = Identity("0" * 64, True, "kit-1")

        def ask(self, *words: str, texts: Mapping | None = None, seconds: float | None = None) -> Answer:
            if asked is not None:
                asked.append((words, texts))
            return answers[words[0]]

    return Fake()


def case_of_chain() -> Case:
    return Case(CHAIN, "F", read_network(CHAIN), Class(1, (PREFIX,), (("a", None),)), frozenset({2}))


def rested_with(labels: dict, held: dict) -> Rested:
    return Rested(0.1, 2.0, 6, 3 << 20, 1.5, held, {PREFIX: labels}, frr.export(read_network(CHAIN)))


def told(path: list[int], peer: str, **more: object) -> dict:
    return {
        "valid": True,
        "aspath": {"segments": [{"type": "as-sequence", "list": path}]},
        "peer": {"peerId": peer},
        **more,
    }


LABELS = {"a": ORIGIN, "b": BgpLabel(100, (1,), (65538,)), "c": BgpLabel(100, (1,), ())}
HELD = {"b": {PREFIX: [told([1], "10.0.2.0", bestpath={"overall": True}), told([3, 1], "10.0.1.1")]}}


def test_each_import_is_asked_of_a_router_with_one_neighbor() -> None:
    asked: list = []
    program = fake({"check": Answer(6, b"", b"not stable: b not-a-candidate\n")}, asked)
    count, differing = compare_imports(program, case_of_chain(), rested_with(LABELS, HELD))
    assert count == 4 and len(differing) == 2 and differing[0].startswith("b from ")
    texts = [texts for _, texts in asked if texts["F"].startswith("hostname b")]
    assert [texts["F"].count(" neighbor ") for texts in texts] == [5, 5]
    assert sorted(line for texts in texts for line in texts["S"].splitlines() if line.startswith("b ")) == [
        "b bgp 100 path 1 comms",
        "b bgp 100 path 3 1 comms",
    ]


def test_one_neighbor_is_left() -> None:
    text = with_one_neighbor(read_text(CHAIN, "F"), "b", "10.0.1.1")
    assert text.split("end\n")[0].count(" neighbor ") == 1
    assert [router.name for router in read_text(text, "F")] == ["b", "a", "c"]


def test_a_tie_is_told_where_a_better_key_was_accepted() -> None:
    case = case_of_chain()
    held = {
        "b": {
            PREFIX: [
                told([1], "10.0.2.0", community={"list": ["1:2"]}, bestpath={"overall": True}),
                told([3], "10.0.1.1"),
            ]
        }
    }
    rested = rested_with(LABELS, held)
    assert (tie_at(case, rested, PREFIX, "b") or "").endswith("the model chooses by communities")
    program = fake({"check": Answer(6, b"", b"not stable: b better-candidate\n")})
    assert (judge(program, case, rested).tie or "").startswith("b: FRR chose by age")
    assert tie_at(case, rested_with(LABELS, {"b": {PREFIX: [told([3, 1], "10.0.1.1")]}}), PREFIX, "b") is None


def round_of(verdict: Verdict = Verdict("stable")) -> Round:
    case = case_of_chain()
    run = Run("large", case, rested_with(LABELS, HELD), verdict, 4, [])
    small = Run("small", case, rested_with(LABELS, HELD), Verdict("stable"), 2, [])
    return Round([run, small], [], run, small)


def test_the_small_answer_is_carried_back_and_compared_by_keys() -> None:
    found = round_of()
    lifted = b"a bgp 100 path comms\nb bgp 100 path 2 comms 1:2\nc bgp 100 path 3 comms\n"
    carry_back(fake({"lift": Answer(0, lifted, b""), "check": Answer(0, b"stable\n", b"")}), found)
    assert found.agrees and found.unequal == ["b 10.9.0.0/24"]
    assert outcome(found) == ["3 routers and 3 groups:", "agreement", "in another stable solution"]
    lines = table(found).splitlines()
    assert lines[0].split() == ["large", "small"] and lines[4].split() == ["memory,", "MiB", "3", "3"]
    assert "imports as in the model  4 of 4  2 of 2" in lines and lines[-1] == "agreement"


def test_no_agreement_where_labels_are_not_stable() -> None:
    found = round_of(Verdict("not stable: b not-a-candidate"))
    assert not found.agrees and table(found).endswith("no agreement\n")


RECORDS = [figures.record_of("fat-tree-4", round_of(), 1.25)]


def test_a_lab_says_which_program_judged(
    monkeypatch: pytest.MonkeyPatch, tmp_path: Path, capsys: pytest.CaptureFixture
) -> None:
    answers = {
        "classes": Answer(0, f"class 1 prefixes {PREFIX} origins a\n".encode(), b""),
        "groups": Answer(0, b"group 1 origin: a\ngroup 2: b c\n", b""),
        "check": Answer(0, b"stable\n", b""),
    }
    monkeypatch.setattr(tools, "Program", lambda: fake(answers))
    monkeypatch.setattr(tools, "refuse_unless_able", lambda: None)
    monkeypatch.setattr(tools, "run_lab", lambda *_: rested_with(LABELS, HELD))
    (tmp_path / "chain.cfg").write_text(CHAIN)
    assert tools.lab([str(tmp_path / "chain.cfg"), "1"]) == 0
    told = capsys.readouterr()
    assert told.err.splitlines()[-1] == "Judged by the proved program, SHA-256 0000000000000000, made with kit-1"
    assert read_solution(told.out) == LABELS


def test_the_table_of_records() -> None:
    row = figures.table_of(RECORDS).splitlines()[2]
    assert row == "| fat-tree-4 | 3, 3 | 3, 3 | 2.0, 2.0 | 1.5, 1.5 | 6, 6 | 3, 3 | stable | - | 3 of 3 | 1.2 |"
    assert figures.keep(RECORDS, {**RECORDS[0], "load": 2}) == [{**RECORDS[0], "load": 2}]


def test_a_page_keeps_what_is_around_its_table() -> None:
    page = f"before\n{figures.BEGIN}\nold\n{figures.END}\nafter\n"
    assert figures.with_table(page, "new\n") == f"before\n{figures.BEGIN}\nnew\n{figures.END}\nafter\n"
    assert figures.with_table("no marks\n", "new\n") == "no marks\n"


def test_the_pages_show_the_records_that_are_kept() -> None:
    for page in figures.PAGES:
        text = page.read_text()
        assert figures.with_table(text, figures.table_of(figures.read_records())) == text


def test_the_plot_is_the_same_each_time(tmp_path: Path) -> None:
    for name in ("one.svg", "two.svg"):
        figures.draw(RECORDS, tmp_path / name)
    assert (tmp_path / "one.svg").read_bytes() == (tmp_path / "two.svg").read_bytes()


@pytest.mark.parametrize("name", ["fat-tree-5", "fat-tree-22", "campus-0x1", "ring"])
def test_networks_without_a_text(name: str) -> None:
    with pytest.raises(Refused, match=f"no network {name}"):
        figures.text_of(name)


def test_the_campus_is_a_network() -> None:
    network = read_network(campus_text(5, 10))
    assert (len(network.devices), len(network.links), network.protocol) == (62, 121, "ospf")


def test_a_lab_needs_root(monkeypatch: pytest.MonkeyPatch) -> None:
    monkeypatch.setattr(enclosure.os, "geteuid", lambda: 1000)
    with pytest.raises(Refused, match="needs root"):
        enclosure.refuse_unless_able()


def test_a_lab_names_what_it_lacks(monkeypatch: pytest.MonkeyPatch) -> None:
    monkeypatch.setattr(enclosure.os, "geteuid", lambda: 0)
    monkeypatch.setattr(enclosure.shutil, "which", lambda name: None if name == "nsenter" else name)
    with pytest.raises(Refused, match="no program nsenter: install the package util-linux"):
        enclosure.refuse_unless_able()


def test_a_lab_leaves_half_of_the_memory(monkeypatch: pytest.MonkeyPatch) -> None:
    monkeypatch.setattr(enclosure, "free_memory", lambda: 660 << 20)
    enclosure.refuse_unless_small(10)
    with pytest.raises(
        Refused, match="a lab of 11 routers takes up to 363 MiB, more than half of the 660 MiB that are free"
    ):
        enclosure.refuse_unless_small(11)


def test_an_export_is_told(monkeypatch: pytest.MonkeyPatch, tmp_path: Path, capsys: pytest.CaptureFixture) -> None:
    monkeypatch.setattr(tool, "Program", lambda: fake({"classes": Answer(0, b"", b"")}))
    words = [
        "--to",
        "frr",
        "--json",
        "--report",
        str(tmp_path / "report"),
        str(TOP / "examples" / "inputs" / "two-routers.cfg"),
        str(tmp_path / "out"),
    ]
    assert tool.main(words) == 0
    assert capsys.readouterr().out == f"2 configurations in {tmp_path / 'out'}\n"
    record = json.loads((tmp_path / "report").read_text())
    assert record["program"] == {"sha256": "0" * 64, "proved": True, "kit": "kit-1"}
    assert record["files"] == sorted(path.name for path in (tmp_path / "out").iterdir())
    assert {change["rule"] for change in record["changes"]} <= set(frr.RULES)


def export(monkeypatch: pytest.MonkeyPatch, report: Path, folder: Path, text: str = "") -> int:
    """Exports a text, by default of one router, with a report."""
    monkeypatch.setattr(tool, "Program", lambda: fake({"classes": Answer(0, b"", b"")}))
    source = folder.parent / "text.cfg"
    source.write_text(text or "hostname a\nend\n")
    return tool.main(["--to", "frr", "--report", str(report), str(source), str(folder)])


def test_one_configuration_is_one(
    monkeypatch: pytest.MonkeyPatch, tmp_path: Path, capsys: pytest.CaptureFixture
) -> None:
    assert export(monkeypatch, tmp_path / "report", tmp_path / "out") == 0
    assert capsys.readouterr().out == f"1 configuration in {tmp_path / 'out'}\n"


@pytest.mark.parametrize(
    "report, told",
    [
        ("none/report", "No such file or directory"),
        ("text.cfg/report", "Not a directory"),
        ("/dev/full", "No space left on device"),
    ],
)
def test_without_its_report_no_folder_is_written(
    report: str, told: str, monkeypatch: pytest.MonkeyPatch, tmp_path: Path
) -> None:
    with pytest.raises(OSError) as fault:
        export(monkeypatch, tmp_path / report, tmp_path / "out")
    # (a fault without the name of a file is one of writing, status 4)
    assert (fault.value.filename, fault.value.strerror) == (None, f"{tmp_path / report}: {told}")
    assert [path.name for path in tmp_path.iterdir()] == ["text.cfg"]


def test_without_its_folder_no_report_is_written(monkeypatch: pytest.MonkeyPatch, tmp_path: Path) -> None:
    (tmp_path / "out").mkdir()
    (tmp_path / "out" / "kept").touch()
    with pytest.raises(Refused, match="not an empty folder"):
        export(monkeypatch, tmp_path / "report", tmp_path / "out")
    assert sorted(path.name for path in tmp_path.iterdir()) == ["out", "text.cfg"]


def test_the_report_stands_beside_the_folder(monkeypatch: pytest.MonkeyPatch, tmp_path: Path) -> None:
    with pytest.raises(Refused, match="the report goes beside"):
        export(monkeypatch, tmp_path / "out" / "report", tmp_path / "out")
    assert not (tmp_path / "out").exists()


@pytest.mark.skipif(not shutil.which("vtysh"), reason="the package frr is not there: no daemon reads what is written")
@pytest.mark.parametrize("seed", range(1, 4))
def test_frr_takes_random_networks(seed: int, tmp_path: Path) -> None:
    for name, text in frr.export(read_network(random_text(seed))).files.items():
        assert said_by_vtysh(text, tmp_path) == "", name
