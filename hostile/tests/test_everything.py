"""`hostile/run --all` runs every part, and ends with the status of the first that fails."""

import subprocess

import pytest

from bonsainet.ask.program import TOP
from bonsainet.cli.command_line import Refused
from hostile import asked_run, command, everything, frames_run
from hostile.resting import lost_networks, networks
from hostile.solver import command as solving


def test_each_part_takes_its_words():
    """The parts are there, and get equal shares of the seconds."""
    wanted = everything.Wanted(100, 2, 7, at_least=3)
    made = everything.steps(wanted)
    assert all((TOP / "hostile" / words[0]).is_file() for words in [*made, *everything.lab_steps("ask", wanted)])
    assert all(words[-2:] == ["--seconds", "20"] for words in made)
    assert {words[0] for words in made} == {"run", "ask", "frames", "solve"}
    assert command.words().parse_args(made[0][1:]).seed == 7 and command.words().parse_args(made[0][1:]).at_least == 3
    assert [frames_run.words().parse_args(words[1:]).by for words in made if words[0] == "frames"] == [
        "bonsai",
        "reader",
    ]


@pytest.mark.parametrize("main", [asked_run.main, solving.main])
def test_the_words_are_those_of_the_parts(main, monkeypatch, capsys):
    """A part that has no such option ends with status 2."""
    part = {asked_run.main: "ask", solving.main: "solve"}[main]
    words = next(words for words in everything.steps(everything.Wanted(1, 1, 7)) if words[0] == part)
    with pytest.raises(SystemExit) as ended:
        main([*words[1:], "--help"])
    assert ended.value.code == 0 and "--jobs" in capsys.readouterr().out


def test_few_networks_run_on_frr_where_there_is_little_time():
    short, long = (everything.lab_steps("ask", everything.Wanted(seconds, 2, 7)) for seconds in (120, 600))
    names = {made.name for made in networks.networks()} & {text.name for text in lost_networks.texts()}
    assert all(set(words[words.index("--only") + 1 :: 2][:2]) <= names for words in short)
    assert not any("--only" in words for words in long)


def test_what_the_system_does_not_allow_is_left_out(monkeypatch, capsys):
    """The parts that need no namespaces run, and the corpus where it is named."""
    ran = []

    def run(words, check, capture_output=False):
        ran.append(words[0].rpartition("/")[2])
        return subprocess.CompletedProcess(words, 1 if ran[-1] == everything.ENCLOSE[0] else 0)

    monkeypatch.setattr(everything, "refuse_unless_able", lambda: None)
    monkeypatch.setattr(everything, "own_program", lambda: "ask")
    monkeypatch.setattr(everything.subprocess, "run", run)
    assert everything.run(everything.Wanted(10, 1, 7, corpus=TOP)) == 0
    assert ran[1:] == ["run", "ask", "frames", "frames", "solve", "corpus"]
    assert "left out: events and losses: the system allows no namespaces" in capsys.readouterr().out


def test_the_first_that_fails_ends_all(monkeypatch, capsys):
    def refuse():
        raise Refused("a lab needs root, for network namespaces")

    ran = []

    def run(words, check):
        ran.append(words[0].rpartition("/")[2])
        return subprocess.CompletedProcess(words, 3 if ran[-1] == "frames" else 0)

    monkeypatch.setattr(everything, "refuse_unless_able", refuse)
    monkeypatch.setattr(everything, "own_program", lambda: None)
    monkeypatch.setattr(everything.subprocess, "run", run)
    assert everything.run(everything.Wanted(10, 1, 7)) == 3
    told = capsys.readouterr()
    assert ran == ["run", "ask", "frames"] and "left out: events and losses: a lab needs root" in told.out
    assert "hostile/frames ended with status 3" in told.err
