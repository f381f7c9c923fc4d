"""The answers to a file of questions as a JUnit report, which most services that run tests can show.

A question is a test case. It fails where the answer for one of its classes is not `yes`.
"""
from __future__ import annotations

from xml.etree import ElementTree

from bonsainet.asking.questions import Question
from bonsainet.asking.reports import ClassAnswer, Failing, Part, Report


def junit(file: str, questions: list[Question], reports: list[Report]) -> bytes:
    """The report. `file` is the name of the file of questions."""
    by_line = {question.line: question for question in questions}
    cases = [(by_line[report.line], report) for report in reports if report.line in by_line]
    failed = sum(bool(_failures(report)) for _, report in cases)
    top = ElementTree.Element("testsuites")
    suite = ElementTree.SubElement(
        top, "testsuite", name=file, tests=str(len(cases)), failures=str(failed), errors="0", skipped="0"
    )
    for question, report in cases:
        case = ElementTree.SubElement(
            suite, "testcase", classname="bonsai-ask", name=question.name, file=file, line=str(question.line)
        )
        failures = _failures(report)
        if failures:
            failure = ElementTree.SubElement(case, "failure", message=failures[0], type="answer")
            failure.text = "\n".join([" ".join(question.words), *failures])
        ties = [_tie(part) for part in report.parts if isinstance(part, ClassAnswer) and part.tie]
        if ties:
            ElementTree.SubElement(case, "system-out").text = "\n".join(ties)
    ElementTree.indent(top)
    return b'<?xml version="1.0" encoding="utf-8"?>\n' + ElementTree.tostring(top, encoding="unicode").encode() + b"\n"


def _failures(report: Report) -> list[str]:
    """A line for each class, and each loss, for which the answer is not `yes`."""
    return [line for part in report.parts for line in _failures_of(part)]


def _failures_of(part: Part) -> list[str]:
    if not isinstance(part, ClassAnswer):
        return []
    own = [] if part.verdict == "yes" else [f"class {part.number}: {part.verdict}"]
    return own + [f"class {part.number} {line}" for line in _losses(part.failing)]


def _losses(failing: Failing | None) -> list[str]:
    if not failing:
        return []
    return [
        f"without router {loss.routers[0]}: {loss.verdict}"
        if loss.rank is None
        else f"without link {loss.rank} between {loss.routers[0]} and {loss.routers[1]}: {loss.verdict}"
        for loss in failing.losses
    ]


def _tie(answer: ClassAnswer) -> str:
    assert answer.tie
    return f"class {answer.number}: {answer.verdict}, tied at {answer.tie.router} by {answer.tie.by}"
