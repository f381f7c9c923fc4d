"""The other programs are measured beside `groups`, and the networks that are asked about are what they are called."""
from pathlib import Path

import pytest

from bonsainet.ask.native import native
from bonsainet.ask.program import Program
from bonsainet.bench import questions, turns
from bonsainet.bench.questions import COMPRESS_ALL, COUNT, CRATES, GROUPS, ROUTE_OF_ALL, ROUTERS, Plan, Row
from bonsainet.cli.command_line import Refused
from bonsainet.nets import preferring


@pytest.fixture(scope="module")
def programs(tmp_path_factory) -> dict[str, Path]:
    folder = tmp_path_factory.mktemp("programs")
    for crate in CRATES:
        (folder / crate).symlink_to(native(Program(name=crate.replace("_", "-"))))
    return {crate: folder / crate for crate in CRATES}


def answer(programs: dict[str, Path], folder: Path, text: str, *words: str) -> str:
    file = folder / "F"
    file.write_text(text, "ascii")
    return questions.output(programs["bonsai_ask"], [str(file), *words]).decode("ascii")


def row(size: int, command: str, seconds: float, network: str = "fat-tree", links: int = 0) -> Row:
    return Row(size, command, size, links or size, 4, 100, 5, 1.5, network, seconds, seconds, 3.0)


@pytest.mark.parametrize("links", [preferring.around, preferring.in_a_row])
def test_pairs_that_disagree_have_two_solutions_each(programs, tmp_path, links) -> None:
    text = preferring.pairs_text(*links(3))
    assert answer(programs, tmp_path, text, "1", "count") == "class 1 solutions 8\n"


def test_an_internet_has_one_solution_and_the_prefixes_that_are_asked_for(programs, tmp_path) -> None:
    text = preferring.internet_text(1, 12, origins=3)
    answers = answer(programs, tmp_path, text, "*", "count").splitlines()
    assert [line.split()[:4] for line in answers] == [["class", str(number), "solutions", "1"] for number in (1, 2, 3)]
    assert text == preferring.internet_text(1, 12, origins=3) != preferring.internet_text(2, 12, origins=3)
    assert "local-preference 130" in text and "local-preference 90" in text


def test_commands_of_three_programs_are_measured_in_turn(programs) -> None:
    plan = Plan("pairs", questions.pairs_around, (2,), (GROUPS, COUNT, ROUTE_OF_ALL, ROUTERS, COMPRESS_ALL))
    rows = list(questions.measured(programs, plan, 2, 2))
    assert [row.command for row in rows] == [command.name for command in plan.commands]
    assert {(row.routers, row.links, row.classes, row.turns) for row in rows} == {(5, 6, 1, 2)}
    assert all(row.seconds >= row.user > 0 or row.seconds > 0 for row in rows) and all(row.memory > 1 for row in rows)


def test_a_program_that_is_not_beside_is_named(programs, tmp_path, capsys) -> None:
    assert questions.programs_of(programs["bonsai"])["bonsai_ask"] == programs["bonsai_ask"].resolve()
    (tmp_path / "bonsai").write_text("")
    with pytest.raises(Refused, match="bonsai_ask and bonsai_all are not there beside"):
        questions.programs_of(tmp_path / "bonsai")
    (tmp_path / "bonsai_ask").symlink_to(programs["bonsai_ask"])
    assert sorted(questions.programs_of(tmp_path / "bonsai")) == ["bonsai", "bonsai_ask"]
    assert "bonsai_all is not there" in capsys.readouterr().err
    (tmp_path / "bonsai-all").symlink_to(programs["bonsai_all"])
    assert sorted(questions.programs_of(tmp_path / "bonsai")) == ["bonsai", "bonsai_all", "bonsai_ask"]


def test_a_run_without_an_answer_is_refused(programs, tmp_path) -> None:
    (tmp_path / "F").write_text("")
    with pytest.raises(Refused, match="status 2"):
        questions.seconds(programs["bonsai_ask"], [str(tmp_path / "F")])


def test_what_is_kept_is_read_again(tmp_path) -> None:
    rows = [row(8, COUNT.name, 0.02), row(12, ROUTERS.name, 0.5)]
    questions.write(rows, "a state; a machine", tmp_path / "kept.csv")
    assert questions.read(tmp_path / "kept.csv") == ("a state; a machine", rows)


def test_the_table_has_the_largest_size_with_its_growth(tmp_path) -> None:
    rows = [row(8, GROUPS.name, 0.01), row(8, COUNT.name, 0.01)]
    rows += [
        row(16, GROUPS.name, 0.02),
        row(16, COUNT.name, 0.03),
        row(16, ROUTE_OF_ALL.name, 0.2),
        row(32, ROUTERS.name, 0.001),
    ]
    table = questions.questions_text("a state; a machine", rows)
    assert "| fat-tree | 16 | 16 | 4 | `count` | 0.030 |  | 1.50 | 3.0 | 3 |\n" in table
    assert "| fat-tree | 16 | 16 | 4 | `'*' route '*'` | 0.200 | 0.0500 |  |  | 3 |\n" in table
    assert table.endswith("Made with: a state; a machine, in 5 to 5 turns, at a load of 1.5 to 1.5.\n")


def test_questions_stand_alone(programs) -> None:
    for more in (["--memory"], ["--sizes", "8"], ["--command", "groups"], [str(programs["bonsai_ask"])]):
        with pytest.raises(Refused, match="--questions"):
            turns.work(turns.words().parse_args([*more, str(programs["bonsai"]), "--questions"]))
