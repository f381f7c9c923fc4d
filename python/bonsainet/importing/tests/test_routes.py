"""Imports that write routes otherwise, judged by a second reading of what devices do (devices.py): the labels of the text
at rest are routes that the devices hold, each among the best of those that its neighbours send."""
from __future__ import annotations

import re
import tempfile
from collections.abc import Callable
from ipaddress import IPv4Network
from pathlib import Path
from typing import Any

import pytest
from hypothesis import HealthCheck, Phase, assume, given, settings
from hypothesis import strategies as st

from bonsainet.ask.program import Program
from bonsainet.configs.text import text_of
from bonsainet.importing.report import Report
from bonsainet.importing.tests.devices import Device, Labels, Route, candidates
from bonsainet.importing.tests.networks import COMMUNITIES, bgp_texts
from bonsainet.importing.tool import import_folder

FEW = settings(
    max_examples=10,
    deadline=None,
    suppress_health_check=list(HealthCheck),
    derandomize=True,
    phases=(Phase.explicit, Phase.generate),
)
ROUNDS = "*\n" * 12
WORDS = (*COMMUNITIES, "no-export", "65000:2 no-export", "local-AS", "no-advertise")
Draw = Callable[[st.SearchStrategy[Any]], Any]
Change = Callable[[Draw, list[str]], list[str]]


def origin_maps(draw: Draw, lines: list[str]) -> list[str]:
    """Maps at `network` lines, and one at `redistribute connected`, that set communities."""
    own = [line for line in lines if line.startswith(" network")]
    is_whole = draw(st.integers(0, 2)) == 0 and bool(own)
    found = []
    for line in lines:
        if line in own and (is_whole or draw(st.booleans())):
            line = "" if is_whole else f"{line} route-map ORIG-{own.index(line)}"
        found += [line] if line else []
        if line.startswith("router bgp") and is_whole:
            found.append(" redistribute connected route-map CONN")
    for at in range(len(own)):
        found += [f"route-map ORIG-{at} permit 10", f" set community {draw(st.sampled_from(COMMUNITIES))}"]
        found += [" set local-preference 300"] if draw(st.booleans()) else []
    found += [
        "route-map CONN permit 10",
        " match interface Vlan1",
        f" set community {draw(st.sampled_from(COMMUNITIES))}",
    ]
    return [*found, "route-map CONN permit 20", " match interface Vlan2"]


def well_known(draw: Draw, lines: list[str]) -> list[str]:
    """Well-known communities in maps and lists."""
    found = []
    for line in lines:
        if line.startswith(" set community") and draw(st.integers(0, 1)) == 1:
            line = f" set community {draw(st.sampled_from(WORDS))}{' additive' if line.endswith('additive') else ''}"
        if line.startswith("ip community-list standard C2") and draw(st.integers(0, 2)) == 0:
            line = "ip community-list standard C2 permit no-export"
        found.append(line)
    return found


def weights(draw: Draw, lines: list[str]) -> list[str]:
    """Weights of neighbours and of in maps."""
    found = []
    for line in lines:
        found.append(line)
        if " remote-as " in line and draw(st.booleans()):
            found.append(f" neighbor {line.split()[1]} weight {draw(st.sampled_from([0, 10, 200]))}")
        if line.startswith("route-map IN permit") and draw(st.integers(0, 2)) == 0:
            found.append(f" set weight {draw(st.sampled_from([0, 50, 300]))}")
    return found


def paths(draw: Draw, lines: list[str]) -> list[str]:
    """AS path lists at neighbours and in maps."""
    one, other = (draw(st.integers(65001, 65004)) for _ in range(2))
    forms = (
        "^$",
        ".*",
        f"_{one}$",
        f"^{one}$",
        f"^{one}_",
        f"_{one}_",
        f"^{one}(_{one})*$",
        f"_({one}|{other})$",
        "^[0-9]+$",
    )
    found = []
    for line in lines:
        found.append(line)
        if " remote-as " in line and draw(st.integers(0, 3)) == 0:
            found.append(
                f" neighbor {line.split()[1]} filter-list {draw(st.sampled_from('12'))} {draw(st.sampled_from(['in', 'out']))}"
            )
        if line.startswith("route-map OUT") and draw(st.integers(0, 2)) == 0:
            found.append(f" match as-path {draw(st.sampled_from('12'))}")
    for name in "12":
        for _ in range(draw(st.integers(1, 2))):
            act = draw(st.sampled_from(["permit", "permit", "deny"]))
            found.append(f"ip as-path access-list {name} {act} {draw(st.sampled_from(forms))}")
    return found


def expanded(draw: Draw, lines: list[str]) -> list[str]:
    """Expanded community lists for standard ones."""
    forms = ("65000:[12]", "_65000:3_", "65000:.*", "6500[0-9]:1$", ":(1|3)", "_65009:", "^65000:1_")
    found = []
    for line in lines:
        if line.startswith("ip community-list standard C"):
            name, act = line.split()[3:5]
            line = f"ip community-list expanded {name} {act} {draw(st.sampled_from(forms))}"
        found.append(line)
    return found


def routers_of(text: str) -> list[list[str]]:
    """The lines of each router."""
    return [part.strip("\n").splitlines() for part in re.split(r"(?m)^end$", text) if part.strip()]


def read(report: Report, label: list[str]) -> Route | None:
    """A label of the text as a route of a device, whose preference and weight are its own."""
    if label == ["none"]:
        return None
    at = label.index("comms")
    path = [number for word in label[3:at] for number in [word.partition("*")[0]] * int(word.partition("*")[2] or 1)]
    back = {word: name for name, word in report.folder.held.items()}
    return Route(tuple(path), frozenset(back.get(word, word) for word in label[at + 1 :]))


def differences(report: Report, program: Program, devices: list[Device]) -> list[str]:
    """The labels at rest that devices would not hold."""
    text, found = text_of(report.folder.routers), []
    origins = {device.name: device.origins() for device in devices}
    classes = program.classes(text)
    told = {prefix for one in classes for prefix in one.prefixes}
    assert told == {str(prefix) for own in origins.values() for prefix in own}
    for one in classes:
        answer = program.done("run", "F", str(one.number), "S", texts={"F": text, "S": ROUNDS}).splitlines()
        if answer[0] != "rest":
            continue
        for prefix in map(IPv4Network, one.prefixes):
            labels: Labels = {line.split()[0]: read(report, line.split()[1:]) for line in answer[1:]}
            for name, own in origins.items():
                if prefix in own:
                    labels[name] = Route((), own[prefix])
            found += [
                f"{device.name} {prefix}: {labels[device.name]}"
                for device in devices
                if prefix not in origins[device.name] and not _holds(devices, device, prefix, labels)
            ]
    return found


def _holds(devices: list[Device], device: Device, prefix: IPv4Network, labels: Labels) -> bool:
    routes = candidates(devices, device, prefix, labels)
    label = labels[device.name]
    if label is None or not routes:
        return label is None and not routes
    best = max(route.key for route in routes)
    return any(
        (route.path, route.communities) == (label.path, label.communities) for route in routes if route.key == best
    )


def report_on(texts: list[str], program: Program) -> Report:
    """The import of a folder with these files."""
    with tempfile.TemporaryDirectory() as room:
        for number, text in enumerate(texts):
            (Path(room) / f"r{number}.cfg").write_text(text + "end\n")
        return import_folder(room, program)


@pytest.mark.parametrize(
    "changes, least",
    [
        ((), 10),
        ((origin_maps,), 8),
        ((well_known,), 8),
        ((weights,), 8),
        ((paths,), 1),
        ((expanded,), 3),
        ((origin_maps, well_known), 6),
        ((origin_maps, well_known, weights), 4),
    ],
    ids=lambda one: "+".join(way.__name__ for way in one) or "as it stands" if isinstance(one, tuple) else "",
)
def test_labels_are_routes_of_devices(changes: tuple[Change, ...], least: int, program: Program) -> None:
    taken = []

    @given(data=st.data())
    @FEW
    def each(data: st.DataObject) -> None:
        parts = routers_of(data.draw(bgp_texts()))
        for change in changes:
            parts = [change(data.draw, lines) for lines in parts]
        texts = ["\n".join([*lines, ""]) for lines in parts]
        report = report_on(texts, program)
        assume(not report.folder.log.refusals)
        taken.append(texts)
        assert not differences(report, program, [Device(text) for text in texts])

    each()
    assert len(taken) >= least
