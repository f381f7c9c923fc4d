"""Faults to plant into the tools, the launcher and the build, each with the tests that must see it."""
from __future__ import annotations

import dataclasses

from hostile.planting.fault import Fault


@dataclasses.dataclass(frozen=True)
class ToolFault(Fault):
    """A fault of a tool. Its file is one of the repository; `tests` are the files of tests of its part."""

    tests: tuple[str, ...] = ()


def _fault(name: str, file: str, right: str, wrong: str, means: str, *tests: str) -> ToolFault:
    """A fault of the part whose name is the first word of the fault's. Files are those of the launcher and of the package."""
    place = file if file == "bonsai" else f"python/bonsainet/{file}"
    where = tuple(f"python/bonsainet/{test}" for test in tests)
    return ToolFault(name, name.partition("-")[0], place, right, wrong, means, where)


LAUNCHER, SOURCES = "repo/tests/test_launcher.py", "repo/tests/test_launcher_sources.py"
STREAMS, BUILDING = "repo/tests/test_launcher_streams.py", "repo/tests/test_building.py"
CRASHES = "every/tests/test_crashes.py"
FAULTS = [
    _fault(
        "launcher-time",
        "bonsai",
        "max(file.st_mtime, file.st_ctime) < made",
        "file.st_mtime < made",
        "a source that was put back with its old time is not newer",
        LAUNCHER,
    ),
    _fault(
        "launcher-sum",
        "bonsai",
        "if its_sum != sum_of(program.proved) or not os.access",
        "if not os.access",
        "any file in the place of the proved program is proved",
        LAUNCHER,
    ),
    _fault(
        "launcher-count",
        "bonsai",
        "return count == str(len(found)) and all(",
        "return all(",
        "a source that was removed is not missed",
        SOURCES,
    ),
    _fault(
        "launcher-lock",
        "bonsai",
        "            fcntl.flock(lock, fcntl.LOCK_EX)\n",
        "",
        "runs at once build several times",
        LAUNCHER,
    ),
    _fault(
        "launcher-notice",
        "bonsai",
        '    tell("%s: this answer is from an unproved build%s; ./build makes the proved program" % (program.name, more))\n',
        "",
        "no line says that a build is not proved",
        LAUNCHER,
    ),
    _fault(
        "launcher-waits",
        "bonsai",
        "        build = Build(build.program)\n",
        "",
        "what was read before another run built is built, whatever was saved since",
        SOURCES,
    ),
    _fault(
        "launcher-others",
        "bonsai",
        "found.st_uid == os.geteuid() and not found.st_mode & 0o022",
        "True",
        "builds are taken from a folder that others may write",
        SOURCES,
    ),
    _fault(
        "launcher-streams",
        "bonsai",
        "    hold_streams()\n    program = called",
        "    program = called",
        "a file gets the number of a standard stream that is closed",
        STREAMS,
    ),
    _fault(
        "build-now",
        "repo/building.py",
        "os.utime(place, (self.begun, self.begun))",
        "os.utime(place)",
        "a source that was saved while the build looked is older than the program",
        BUILDING,
    ),
    _fault(
        "build-twice",
        "repo/building.py",
        "if not self.are_unchanged():",
        "if False:",
        "sources may change while they are proved",
        BUILDING,
    ),
    _fault(
        "build-status",
        "repo/building.py",
        "    if ran.status:\n",
        "    if False:\n",
        "a run of rt that fails is believed",
        BUILDING,
    ),
    _fault(
        "build-untold",
        "repo/building.py",
        "    if proved != wanted:\n",
        "    if False:\n",
        "a run of rt that tells of no crate is believed",
        BUILDING,
    ),
    _fault(
        "page-escape",
        "page/tool.py",
        "autoescape=True",
        "autoescape=False",
        "names are markup of the page",
        "page/tests/test_page.py",
    ),
    _fault(
        "draw-escape",
        "drawing/layout.py",
        'return graphviz.escape(text.replace("&", "&amp;"))',
        "return text",
        "names are markup of Graphviz",
        "drawing/tests/test_drawing.py",
        "drawing/tests/test_large_groups.py",
    ),
    _fault(
        "import-silent",
        "importing/report.py",
        "if not rules:",
        "if False:",
        "a line may change without a rule",
        "importing/tests/test_hostile.py",
    ),
    _fault(
        "import-protected",
        "importing/decisions.py",
        'is_part = line.words[:1] == ["match"] or',
        "is_part =",
        "a decision may drop a line without which its entry says something else",
        "importing/tests/test_refusals.py",
        "importing/tests/test_folders.py",
    ),
    _fault(
        "import-escape",
        "importing/report.py",
        "printable(text)}",
        "text}",
        "the report has what a terminal obeys",
        "importing/tests/test_hostile.py",
    ),
    _fault(
        "export-secret",
        "exporting/writer.py",
        'return " ".join(words[: at + 1] + ["..."] * (at + 1 < len(words)))',
        'return " ".join(words[: at + len(words)])',
        "reports tell secrets",
        "exporting/tests/test_exporting.py",
    ),
    _fault(
        "tools-whole",
        "cli/command_line.py",
        "else beside(whole)",
        "else whole",
        "a file is written in its place",
        "cli/tests/test_outputs.py",
    ),
    _fault(
        "tools-source",
        "cli/command_line.py",
        "if os.path.samefile(source, name):",
        "if False:",
        "the file that is read is written over",
        "cli/tests/test_outputs.py",
    ),
    _fault(
        "tools-streams",
        "cli/command_line.py",
        "    streams.hold()\n",
        "",
        "closed standard streams get files",
        "cli/tests/test_closed_streams.py",
    ),
    _fault(
        "tools-numbers",
        "ask/program.py",
        "fcntl.F_DUPFD_CLOEXEC, LOWEST",
        "fcntl.F_DUPFD_CLOEXEC, 0",
        "the program gets a text by the number of a standard stream",
        "ask/tests/test_where.py",
    ),
    _fault(
        "tools-proved",
        "ask/where.py",
        '.startswith("proved, ")',
        '.endswith("")',
        "any program is reported as proved",
        "ask/tests/test_where.py",
    ),
    _fault(
        "every-program",
        "every/plan.py",
        '"text": "text", "program": "program"}',
        '"text": "text"}',
        "a run goes on with another program",
        CRASHES,
    ),
    _fault(
        "every-command",
        "every/plan.py",
        'names = {"command": "command", ',
        "names = {",
        "a run goes on with another command",
        CRASHES,
    ),
    _fault(
        "every-mark",
        "ask/frames.py",
        "        if len(written) < length:\n            return\n",
        "",
        "half an answer gets its name",
        "ask/tests/test_frames.py",
        CRASHES,
    ),
    _fault(
        "every-kept",
        "every/answers.py",
        'if rest == f"{answer.stat().st_size}\\t{sum_of(answer)}":',
        "if rest:",
        "an answer that was harmed is not asked again",
        CRASHES,
    ),
    _fault(
        "every-lock",
        "every/jobs.py",
        "            fcntl.flock(self.file, fcntl.LOCK_EX | fcntl.LOCK_NB)\n",
        "",
        "two runs are at work in one folder",
        CRASHES,
    ),
]
