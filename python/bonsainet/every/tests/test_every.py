"""Every class is asked once, here and over ssh, and an interrupted run goes on where it stopped."""
import getpass
import os
import shutil
import signal
import socket
import subprocess
import sys
from collections.abc import Iterator
from pathlib import Path

import pytest

from bonsainet.ask.program import TOP, Program
from bonsainet.ask.where import sum_of, without_notices
from bonsainet.every.jobs import Lock, Where, run
from bonsainet.every.plan import Plan
from bonsainet.nets.fat_tree import fat_tree_text
from bonsainet.tests.asking import LATEST, TWO_ALIKE, compressed, example, place_of, tool, wait_for

SSHD = shutil.which("sshd") or "/usr/sbin/sshd"


def test_classes_of_equal_groups_and_other_costs_have_other_shapes() -> None:
    one, other = compressed("campus.cfg", 11), compressed("campus.cfg", 12)
    assert one.groups == other.groups and one.shape != other.shape


def test_answers_are_those_of_the_program(tmp_path: Path) -> None:
    folder = tmp_path / "all"
    ran = tool("bonsai-every", place_of("campus.cfg"), folder)
    assert (ran.returncode, ran.stderr) == (0, b"bonsai-every: 16 of 16 answered\n")
    assert {path.name for path in folder.glob("class-*")} == {f"class-{number}.cfg" for number in range(1, 17)}
    assert all(
        (folder / f"class-{number}.cfg").read_text() == compressed("campus.cfg", number).text for number in range(1, 17)
    )


def test_each_class_has_an_answer_and_its_prefixes(tmp_path: Path) -> None:
    assert tool("bonsai-every", "-", tmp_path, raw=TWO_ALIKE.encode()).returncode == 0
    assert (tmp_path / "index.tsv").read_text() == "class\tprefixes\n1\t10.1.0.0/24\n2\t10.2.0.0/24\n"
    assert (tmp_path / "class-2.cfg").exists()


def test_each_class_and_a_command_behind(tmp_path: Path) -> None:
    ran = tool("bonsai-every", place_of("campus.cfg"), tmp_path, "--then", "grep -c ^hostname; echo $CLASS")
    assert ran.returncode == 0
    assert (tmp_path / "class-12.out").read_text() == "5\n12\n"


def test_a_folder_that_has_anything_and_a_folder_of_another_text(tmp_path: Path) -> None:
    place = place_of("fabric.cfg")
    assert tool("bonsai-every", place, tmp_path).returncode == 0
    ran = tool("bonsai-every", place, tmp_path)
    assert (ran.returncode, ran.stderr) == (
        1,
        f"bonsai-every: {tmp_path}: the folder is not empty: --resume goes on with what it has\n".encode(),
    )
    ran = tool("bonsai-every", place_of("campus.cfg"), tmp_path, "--resume")
    assert ran.returncode == 1 and b"it was begun with another" in ran.stderr
    assert tool("bonsai-every", place, tmp_path, "--resume").returncode == 0


def test_a_job_that_fails_is_told_and_asked_again(tmp_path: Path) -> None:
    words = [place_of("fabric.cfg"), tmp_path / "all", "--then", f"test -e {tmp_path}/there && wc -l"]
    ran = tool("bonsai-every", *words)
    assert ran.returncode == 1 and b"0 of 2 answered; " in ran.stderr
    assert not (tmp_path / "all" / "class-1.out").exists()
    (tmp_path / "there").touch()
    assert tool("bonsai-every", *words, "--resume").returncode == 0
    assert (tmp_path / "all" / "class-1.out").read_text().strip() == "75"


def test_interrupted_and_resumed(tmp_path: Path) -> None:
    """72 classes, ended after some answers, then resumed: no class is answered twice. Each answer waits, so that the run is not done before."""
    text, folder = tmp_path / "fat-tree-12.cfg", tmp_path / "all"
    text.write_text(fat_tree_text(12))
    words = [str(text), str(folder), "--jobs", "2", "--then", "cat; sleep 0.1"]
    started = subprocess.Popen(
        [TOP / "tools/bonsai-every", *words], stdout=subprocess.DEVNULL, stderr=subprocess.PIPE, start_new_session=True
    )
    wait_for(lambda: len(list(folder.glob("class-*.out"))) > 20)
    started.send_signal(signal.SIGINT)
    _, told = started.communicate(timeout=LATEST)
    assert (started.returncode, without_notices(told)) == (130, b"bonsai-every: interrupted\n")
    before = {path.name for path in folder.glob("class-*.out")}
    assert 20 <= len(before) < 72
    assert all((folder / name).read_text().endswith("end\n") for name in before)
    assert tool("bonsai-every", *words, "--resume").returncode == 0
    noted = [line.split("\t")[0] for line in (folder / "answers.tsv").read_text().splitlines()[1:]]
    assert sorted(map(int, noted)) == list(range(1, 73))
    assert len(list(folder.glob("class-*.out"))) == 72
    assert (folder / "class-72.out").read_text() == Program().compress(fat_tree_text(12), 72)


def test_a_class_at_which_a_job_ends_is_told_and_the_others_are_asked(tmp_path: Path) -> None:
    """What stands for bonsai-all ends at each third class of a range."""
    ending = tmp_path / "ending.py"
    ending.write_text(
        "import sys\n"
        "for number in range(int(sys.argv[3]), int(sys.argv[4]) + 1):\n"
        "    if number % 3 == 0:\n"
        "        sys.exit('out of memory')\n"
        "    print(f'class {number} 0 5\\nend {number % 10}', end='', flush=True)\n"
    )
    folder = tmp_path / "all"
    folder.mkdir()
    (folder / "bonsai-all").write_text(f"#!/bin/sh\nexec {sys.executable} {ending} - $*\n".replace(" - ", " "))
    (folder / "bonsai-all").chmod(0o755)
    made = Plan("compress", "", 16, "", sum_of(folder / "bonsai-all"))
    with Lock(folder) as lock:
        assert run(folder, made, ending, Where(jobs="2"), lock) == 5
    assert {path.name for path in folder.glob("class-*")} == {
        f"class-{number}.cfg{'' if number % 3 else '.err'}" for number in range(1, 17)
    }
    assert (folder / "class-9.cfg.err").read_bytes() == b"out of memory\n"


def test_shares_that_begin_with_classes_that_end_a_job_are_asked(tmp_path: Path) -> None:
    """Each of both jobs ends without a word at the first two classes of its share."""
    ending = tmp_path / "ending.py"
    ending.write_text(
        "import sys\n"
        "for number in range(int(sys.argv[3]), int(sys.argv[4]) + 1):\n"
        "    if number in (1, 2, 101, 102):\n"
        "        sys.exit(3)\n"
        "    print(f'class {number} 0 3\\nend', end='', flush=True)\n"
    )
    folder = tmp_path / "all"
    folder.mkdir()
    (folder / "bonsai-all").write_text(f"#!/bin/sh\nexec {sys.executable} {ending} $*\n")
    (folder / "bonsai-all").chmod(0o755)
    made = Plan("compress", "", 200, "", sum_of(folder / "bonsai-all"))
    with Lock(folder) as lock:
        assert run(folder, made, ending, Where(jobs="2"), lock) == 4
    assert len(list(folder.glob("class-*.cfg"))) == 196


def test_what_is_no_frame_is_told(tmp_path: Path) -> None:
    (tmp_path / "bonsai-all").write_text("#!/bin/sh\necho no frame\n")
    (tmp_path / "bonsai-all").chmod(0o755)
    made = Plan("compress", "", 2, "", sum_of(tmp_path / "bonsai-all"))
    with Lock(tmp_path) as lock:
        assert run(tmp_path, made, tmp_path, Where(jobs="1"), lock) == 2
    assert b"a line of no known form: b'no frame" in (tmp_path / "class-1.cfg.err").read_bytes()


@pytest.mark.parametrize("jobs", ["0", "50%", "+1", "many"])
def test_jobs_of_parallel_need_machines(jobs: str, tmp_path: Path) -> None:
    ran = tool("bonsai-every", place_of("fabric.cfg"), tmp_path / "all", "--jobs", jobs)
    assert ran.returncode == 1 and b"without --machines it is a number from 1 on" in ran.stderr


@pytest.fixture
def machines(tmp_path: Path) -> Iterator[tuple[str, str]]:
    """Two ssh servers on the loopback address, as two machines: the words for --sshlogin and --ssh."""
    if not shutil.which("parallel"):
        pytest.skip("the package parallel is not there: no machine is reached by ssh")
    if not os.access(SSHD, os.X_OK):
        pytest.skip("the package openssh-server is not there: no machine is reached by ssh")
    if not shutil.which("rsync"):
        pytest.skip("the package rsync is not there: no machine is reached by ssh")
    if os.geteuid() == 0:
        Path("/run/sshd").mkdir(exist_ok=True)
    for name in ("host", "user"):
        subprocess.run(["ssh-keygen", "-q", "-t", "ed25519", "-N", "", "-f", tmp_path / name], check=True)
    (tmp_path / "allowed").write_text((tmp_path / "user.pub").read_text())
    servers, entries = [], []
    for name in ("east", "west"):
        with socket.socket() as free:
            free.bind(("127.0.0.1", 0))
            port = free.getsockname()[1]
        words = [
            "ListenAddress=127.0.0.1",
            "UsePAM=no",
            "StrictModes=no",
            "PasswordAuthentication=no",
            "PermitRootLogin=prohibit-password",
            "MaxStartups=100",
        ]
        words += [
            f"Port={port}",
            f"HostKey={tmp_path}/host",
            f"AuthorizedKeysFile={tmp_path}/allowed",
            f"PidFile={tmp_path}/{name}.pid",
        ]
        servers.append(
            subprocess.Popen(
                [SSHD, "-D", "-f", "/dev/null", *(f"-o{word}" for word in words)], stderr=subprocess.DEVNULL
            )
        )
        entries.append(f"Host {name}\n HostName 127.0.0.1\n Port {port}\n")
    options = f"Host *\n User {getpass.getuser()}\n IdentityFile {tmp_path}/user\n StrictHostKeyChecking no\n UserKnownHostsFile /dev/null\n LogLevel ERROR\n"
    (tmp_path / "config").write_text("".join(entries) + options)
    try:
        _wait_for(tmp_path / "config")
        yield "2/east,2/west", f"ssh -F {tmp_path}/config"
    finally:
        for server in servers:
            server.terminate()
            server.wait()


def _wait_for(config: Path) -> None:
    """Waits until the ssh servers that the test started answer."""
    for name in ("east", "west"):
        command = ["ssh", "-F", str(config), name, "true"]
        wait_for(
            lambda: not subprocess.run(command, stdin=subprocess.DEVNULL, capture_output=True, check=False).returncode
        )


@pytest.mark.parametrize("then", [[], ["--then", "cat"]], ids=["", "then"])
def test_over_two_machines(then: list[str], machines: tuple[str, str], tmp_path: Path) -> None:
    logins, ssh = machines
    folder = tmp_path / "all"
    ran = tool("bonsai-every", place_of("campus.cfg"), folder, "--machines", logins, "--ssh", ssh, "--jobs", "2", *then)
    # A shell that ssh starts may print lines of its own before.
    assert (ran.returncode, ran.stderr.decode().splitlines()[-1]) == (0, "bonsai-every: 16 of 16 answered")
    hosts = {line.split("\t")[1] for line in (folder / "jobs.log").read_text().splitlines()[1:]}
    assert {host.removeprefix("2/") for host in hosts} == {"east", "west"}
    assert all(
        (folder / f"class-{found.number}.{'out' if then else 'cfg'}").read_text()
        == compressed("campus.cfg", found.number).text
        for found in example("campus.cfg").classes
    )
