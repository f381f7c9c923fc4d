"""What the options of bonsai-ask read and how they end: as the program does over the same words, whatever names the files."""
from __future__ import annotations

import os
import subprocess
import threading
from pathlib import Path

import pytest

from bonsainet.ask.program import TOP, Program
from bonsainet.ask.where import without_notices
from bonsainet.asking.calls import Asked, Call
from bonsainet.asking.shares import class_count

ASK = TOP / "bonsai-ask"
DISAGREE = TOP / "examples" / "inputs" / "asking" / "disagree.cfg"
LIST = b"1 count\n1 route *\n"
WAYS = ("/dev/stdin", "-", "/dev/fd/9", "fifo")
OPTIONS = ((), ("--json",), ("--jobs", "2"), ("--junit", "report.xml"), ("--way", "x"))
End = tuple[int, bytes, bytes]


def end(*words: str | Path, cwd: Path, closing: str = "", stdin: bytes = b"") -> End:
    """The status, the output and the lines on standard error. `closing` are redirections as the shell takes them."""
    ran = subprocess.run(
        ["/bin/sh", "-c", f'exec "$0" "$@" {closing}', ASK, *words],
        cwd=cwd,
        input=stdin,
        capture_output=True,
        check=False,
    )
    return ran.returncode, ran.stdout, without_notices(ran.stderr)


def given(way: str, data: bytes, options: tuple[str, ...], words: list[str], room: Path) -> End:
    """An answer where the word `IT` names the data in this way."""
    (room / "data").write_bytes(data)
    asked = [*options, *(way if word == "IT" else word for word in words)]
    if way != "fifo":
        return end(*asked, cwd=room, stdin=data, closing="9<data" if way == "/dev/fd/9" else "")
    os.mkfifo(room / "fifo")
    writer = threading.Thread(target=(room / "fifo").write_bytes, args=(data,), daemon=True)
    writer.start()
    found = end(*asked, cwd=room)
    writer.join(10)
    return found


@pytest.mark.parametrize("way", WAYS)
@pytest.mark.parametrize("options", [options for options in OPTIONS if options[:1] != ("--junit",)])
def test_whatever_names_f(way: str, options: tuple[str, ...], tmp_path: Path) -> None:
    words = ["IT", "*", "hops", "1", "x"]
    found = given(way, DISAGREE.read_bytes(), options, words, tmp_path)
    assert found == end(*options, DISAGREE, *words[1:], cwd=tmp_path)
    assert found[0] == 8 and found[1]


@pytest.mark.parametrize("way", WAYS)
@pytest.mark.parametrize("options", [options for options in OPTIONS if options[:1] != ("--way",)])
def test_whatever_names_s(way: str, options: tuple[str, ...], tmp_path: Path) -> None:
    (tmp_path / "questions").write_bytes(LIST)
    found = given(way, LIST, options, [str(DISAGREE), "questions", "IT"], tmp_path)
    report = (tmp_path / "report.xml").read_text() if "--junit" in options else ""
    assert 'tests="2"' in report or "--junit" not in options
    wanted = end(*options, DISAGREE, "questions", "questions", cwd=tmp_path)
    assert (found[0], found[2]) == (0, b"") == (wanted[0], wanted[2])
    if "--json" in options:
        assert found[1] == wanted[1].replace(b'"questions"\n   ],', b'"%s"\n   ],' % way.encode())
    else:
        assert found[1] == wanted[1]


def many_classes(count: int) -> str:
    """A router with subnets of different costs, each a class, and comments, so that the text is large."""
    subnets = (
        f"interface Vlan{at}\n ip address 10.0.{at}.1 255.255.255.0\n ip ospf cost {at}\n" for at in range(1, count + 1)
    )
    text = f"hostname a\n{''.join(subnets)}router ospf 1\n network 0.0.0.0 255.255.255.255 area 0\nend\n"
    return f"! {'large ' * 100}\n" * 450 + text


@pytest.fixture(name="large", scope="module")
def large_fixture(tmp_path_factory: pytest.TempPathFactory) -> Path:
    """A folder with a large text of 80 classes under several names, and one with a fault."""
    room = tmp_path_factory.mktemp("large")
    for name in ("ok", "-x.cfg", "--jobs"):
        (room / name).write_text(many_classes(80))
    (room / "bad").write_text(f"hostname b\n no such line\n{many_classes(80)}")
    return room


ENDS: list[tuple[list[str], str]] = [
    (["bad", "*", "nonsense"], ""),
    (["bad", "*", "count"], ""),
    (["/nope", "*", "nonsense"], ""),
    (["/nope", "*", "count"], ""),
    (["ok", "*", "route", "zz"], ""),
    (["ok", "*", "route", "zz"], "2>/dev/full"),
    (["ok", "*", "route", "zz"], "2>&-"),
    (["bad", "*", "count"], "2>/dev/full"),
    (["bad", "*", "nonsense"], "2>/dev/full"),
    (["ok", "*", "isolated", "*"], ">/dev/full"),
    (["ok", "*", "isolated", "*"], ">&-"),
    (["bad", "1", "count"], ">&-"),
    (["bad", "questions", "/nope"], ""),
    (["ok", "questions", "/nope"], ""),
    (["/", "*", "count"], ""),
    (["bad", "questions"], ""),
]


@pytest.mark.parametrize("options", [(), ("--json",)])
@pytest.mark.parametrize("words, closing", ENDS)
def test_faults_end_as_those_of_the_program(
    words: list[str], closing: str, options: tuple[str, ...], large: Path
) -> None:
    program = Program(name="bonsai-ask").path
    command = ["/bin/sh", "-c", f'exec "$0" "$@" {closing}', program, *words]
    ran = subprocess.run(command, cwd=large, stdin=subprocess.DEVNULL, capture_output=True, check=False)
    status, out, err = end(*options, *words, cwd=large, closing=closing)
    err = err.replace(b"bonsai-ask: a folder is no text: bonsai-import makes one text of it\n", b"")
    assert (status, out, err) == (ran.returncode, ran.stdout, ran.stderr)
    assert status in (1, 2, 3, 4)


def test_a_large_file_with_a_name_like_an_option(large: Path) -> None:
    wanted = end("ok", "*", "hops", "0", "*", cwd=large)
    assert wanted == (0, b"".join(b"class %d yes\n" % number for number in range(1, 81)), b"")
    assert end("-x.cfg", "*", "hops", "0", "*", cwd=large) == wanted
    assert end("--jobs=3", "--", "--jobs", "*", "hops", "0", "*", cwd=large) == wanted


@pytest.mark.parametrize("options", [("--json",), ()])
def test_no_module_of_the_folder_in_which_one_stands_is_run(
    options: tuple[str, ...], large: Path, tmp_path: Path
) -> None:
    """Neither with an option nor where the classes of a large text are shared out."""
    for name in ("argparse", "json", "re", "bonsainet"):
        (tmp_path / f"{name}.py").write_text("raise SystemExit('a foreign module')\n")
    words: list[str | Path] = [*options, large / "ok", "*", "hops", "0", "*"]
    assert end(*words, cwd=tmp_path) == end(*words, cwd=large)


def test_a_report_is_not_written_over_the_text(tmp_path: Path) -> None:
    (tmp_path / "net.cfg").write_bytes(DISAGREE.read_bytes())
    (tmp_path / "questions").write_bytes(LIST)
    for name in ("net.cfg", "questions"):
        before = (tmp_path / name).read_bytes()
        ran = end("--junit", name, "net.cfg", "questions", "questions", cwd=tmp_path)
        assert ran[0] == 1 and ran[2] == f"bonsai-ask: {name}: is the file that is read\n".encode()
        assert (tmp_path / name).read_bytes() == before


def test_an_answer_where_standard_error_takes_nothing() -> None:
    ran = end("--jobs", "2", DISAGREE, "1", "route", "*", cwd=TOP, closing="2>/dev/full")
    assert ran[:2] == (0, b"class 1 yes\n")


def test_standard_input_stands_for_one_file() -> None:
    status, out, err = end("--json", "-", "questions", "-", cwd=TOP, stdin=LIST)
    assert (status, out) == (2, b"") and err.endswith(b"- names standard input, and can stand for one file only\n")


def test_words_of_no_form_wait_for_no_input() -> None:
    reader, writer = os.pipe()
    with subprocess.Popen([ASK, "--json", "-", "1", "nonsense"], stdin=reader, stderr=subprocess.PIPE) as ran:
        assert ran.stderr and without_notices(ran.stderr.read()).startswith(b"usage: bonsai-ask")
        assert ran.wait() == 2
    os.close(reader)
    os.close(writer)


@pytest.mark.parametrize("count", [9, 0, None])
def test_classes_are_counted(count: int | None) -> None:
    text = "hostname a\nnonsense\nend\n" if count is None else many_classes(count) if count else ""
    call = Call.of(["F", "*", "count"])
    assert class_count(Asked(Program(name="bonsai-ask"), call, text.encode())) == count
