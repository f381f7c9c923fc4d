"""The page says what the program says, is one file, and works in a browser."""
import dataclasses
import html
import json
import re
import shutil
from collections.abc import Iterator
from pathlib import Path
from typing import Any

import pytest

pytest.importorskip("graphviz", reason="the package python3-graphviz is not there: the page is not tried")
pytest.importorskip("jinja2", reason="the package python3-jinja2 is not there: the page is not tried")

from bonsainet.doubts.tests.test_ties import SETS, text_of
from bonsainet.doubts.ties import TiesAsked, Tied, Unasked
from bonsainet.drawing.layout import CLOSED
from bonsainet.page.build import Rows, everything, rows
from bonsainet.page.pictures import inline
from bonsainet.page.members import Numbers, folded, unfolded
from bonsainet.page.tool import html as page_of, read_report
from bonsainet.nets.campus import campus_text
from bonsainet.nets.fat_tree import fat_tree_text
from bonsainet.configs.compressed import NOTHING, Compressed, asked
from bonsainet.ask.program import Group, Program
from bonsainet.ask.where import Identity
from bonsainet.tests.asking import TWO_ALIKE, compressed, example, place_of, tool, wait_for

PROGRAMS = {"bonsai": Identity("0" * 64, False, None)}
pytestmark = pytest.mark.skipif(not shutil.which("dot"), reason="the package graphviz is not there: no page is made")


def page(name: str, told_by_import: dict | None = None) -> str:
    text = example(name)
    found = [compressed(name, each.number) for each in text.classes]
    return page_of(everything(text, rows(text, found), told_by_import, PROGRAMS))


def test_classes_that_are_alike_but_for_their_prefixes_share_a_row() -> None:
    text = asked(Program(), TWO_ALIKE.encode(), "two-alike.cfg")
    found = rows(text, list(text.compress_each([1, 2])))
    assert [(row.numbers, row.prefixes) for row in found] == [("1 2", ["10.1.0.0/24", "10.2.0.0/24"])]


def test_rows_are_the_same_however_many_classes_come_at_a_time() -> None:
    """The ties are asked of the first class of a row alone."""
    text = asked(Program(), TWO_ALIKE.encode(), "two-alike.cfg")
    found, made = list(text.compress_each([1, 2])), Rows(text)
    asked_of: list[list[int]] = []

    def ties_of(new: list[Compressed]) -> dict[int, list[Tied] | Unasked]:
        asked_of.append([one.number for one in new])
        return {}

    for each in found:
        made.add([each], ties_of)
    assert made.all == rows(text, found) and asked_of == [[1], []]
    assert all(one.network is NOTHING and one.text for row in made.all for one in row.classes)


def test_classes_of_equal_groups_and_other_costs_have_rows_of_their_own() -> None:
    text = example("campus.cfg")
    found = rows(text, [compressed("campus.cfg", each.number) for each in text.classes])
    assert [row.numbers for row in found] == [str(number) for number in range(1, 17)]


def test_each_compressed_text_stands_on_the_page_with_its_members_by_number() -> None:
    told = [html.unescape(found) for found in re.findall(r"<pre>(.*?)</pre>", page("campus.cfg"), re.S)]
    whole = [compressed("campus.cfg", found.number) for found in example("campus.cfg").classes]
    assert [unfolded(text, found.groups) for text, found in zip(told, whole, strict=True)] == [
        found.text for found in whole
    ]
    assert all("! member " not in text for text in told)


@pytest.mark.parametrize("text", ["hostname a\n! member a\n! member c\nend\n", "hostname a\n! members 1\nend\n"])
def test_lines_that_are_none_of_a_group_stay(text: str) -> None:
    groups = [Group(1, True, False, ("a", "b"))]
    assert folded(text, groups) == text
    assert unfolded(folded("! member a\n! member b\n", groups), groups) == "! member a\n! member b\n"


def test_numbers_of_routers() -> None:
    numbers = Numbers(["a", "b", "c", "d"])
    assert numbers.runs(["a", "b", "d"]) == "1-2 4" and numbers.runs(["c"]) == "3" and numbers.runs(["b", "a"]) == "2 1"


def test_names_stand_once_however_many_the_classes_are() -> None:
    """Of twice the routers, with twice the classes, a row is as long, and the page not more than twice."""
    lengths = []
    for access in (3, 6):
        text = asked(Program(), campus_text(2, access).encode(), "F")
        found = list(text.compress_each([each.number for each in text.classes]))
        made = page_of(everything(text, rows(text, found), None, PROGRAMS))
        origins = {router for each in text.classes for router, _ in each.origins}
        shown = re.sub(r"<svg.*?</svg>", "", made, flags=re.S)
        # (the page names a router once, and each that is the first of its group in compressed texts)
        assert all(shown.count(f'"{name}"') <= 1 + 3 * (name in origins) for name in text.network.by_name)
        lengths.append(len(shown) / len(found))
    assert lengths[1] < 1.3 * lengths[0]


def test_names_stay_as_they_are_in_pictures() -> None:
    drawn = '<svg width="9.75pt"><g class="node">\n<path fill="none" stroke="red" d="M1.5,2.25C1,2 3,4 1.5,2.25"/><text x="1.25">r-203.0.113.1</text></g></svg>'
    assert (
        inline(drawn)
        == '<svg width="9pt"><g class="node">\n<rect fill="none" stroke="red" x="1" y="2" width="2" height="2" rx="6"/><text x="1">r-203.0.113.1</text></g></svg>'
    )


def test_nothing_is_loaded_from_elsewhere() -> None:
    made = page("fabric.cfg")
    assert not re.search(r"(src|href)=|@import|url\(", made)
    assert set(re.findall(r"https?://[^\"' <]+", made)) <= {"http://www.w3.org/2000/svg"}


def test_ties_are_told_first() -> None:
    text = asked(Program(), text_of({"m1 u": "route-map OUT out"}, {"m1": SETS}).encode(), "tie.cfg")
    found = list(text.compress_each([1]))
    made = page_of(
        everything(text, rows(text, found, TiesAsked(Program(), text, [1]).by_class(found)), None, PROGRAMS, True)
    )
    assert "In 1 of 1 classes routers hold a tied route" in made
    number = [*text.network.by_name].index("u") + 1
    row = (
        f'<tr><td data-members="{number}"></td>'
        "<td>communities</td><td>over (m1 m2) o</td><td>over (m1 m2) o with 1:1</td></tr>"
    )
    assert 0 < made.index(row) < made.index("<h3>Groups</h3>")


def test_a_network_without_ties_says_so() -> None:
    text = asked(Program(), text_of({}, {}).encode(), "none.cfg")
    found = list(text.compress_each([1]))
    assert "No router holds a tied route" in page_of(
        everything(text, rows(text, found, TiesAsked(Program(), text, [1]).by_class(found)), None, PROGRAMS, True)
    )
    assert "tied route" not in page("campus.cfg")


def test_control_bytes_in_the_name_of_a_file() -> None:
    text = dataclasses.replace(example("two-routers.cfg"), name="a\x01b\x1b[31m<i>.cfg")
    made = page_of(everything(text, rows(text, [compressed("two-routers.cfg", 1)]), None, PROGRAMS))
    assert "<title>Bonsai: a\\x01b\\x1b[31m&lt;i&gt;.cfg</title>" in made
    assert all(letter == "\n" or letter.isprintable() for letter in made)


def test_one_is_told_as_one() -> None:
    assert "<p>OSPF, 2 routers, 1 link, 2 classes of destination prefixes." in page("two-routers.cfg")


def test_an_arrow_of_the_small_network_is_no_policy_of_the_large_one() -> None:
    assert CLOSED in page("two-lone-routers.cfg") and CLOSED not in page("campus.cfg")


def test_unmatched_neighbours_have_reasons() -> None:
    assert re.search(
        r"<td>border</td><td>192.0.2.77</td>.*<td>the neighbour is shut down here</td>", page("edge-and-provider.cfg")
    )


def test_the_report_of_an_import_is_shown_and_its_words_are_no_markup() -> None:
    told = {
        "lines": [{}, {}],
        "refused": [],
        "assumed": [{"file": "a.cfg", "line": 7, "text": "<b>", "reason": "of x & y"}],
        "told": ["kept"],
    }
    made = page("fabric.cfg", told)
    assert '<td>a.cfg</td><td class="number">7</td><td><code>&lt;b&gt;</code></td><td>of x &amp; y</td>' in made
    assert "2 lines did not reach the text unchanged" in made


@pytest.mark.parametrize(
    "report, told",
    [
        ("{", b"no report of bonsai-import"),
        ("[]", b"no report of bonsai-import"),
        ("{}", b"no report of bonsai-import"),
        ("Dear (7)\nyou\n", b"no report of bonsai-import"),
        ("No report: bonsai-import ended before it: x\n", b"ended before its report: x"),
        ('{"failed": "x"}\n', b"ended before its report: x"),
    ],
)
def test_a_report_that_is_none(report: str, told: bytes, tmp_path: Path) -> None:
    (tmp_path / "report.json").write_text(report)
    ran = tool("bonsai-page", place_of("fabric.cfg"), "--import-report", tmp_path / "report.json")
    assert ran.returncode == 1 and told in ran.stderr and ran.stderr.count(b"\n") == 1


def test_both_forms_of_a_report_say_the_same(tmp_path: Path) -> None:
    """The folder's report is read as text and as JSON."""
    room = tmp_path / "folder"
    room.mkdir()
    (room / "a.cfg").write_text("hostname a\nclock timezone Z 0\nrouter bgp 1\n neighbor 192.0.2.9 remote-as 2\nend\n")
    told = []
    for form in ((), ("--json",)):
        assert tool("bonsai-import", room, "--report", tmp_path / "report", *form).returncode == 0
        found = read_report(str(tmp_path / "report"))
        told.append((found["refused"], found["assumed"], found["told"], found["warned"], len(found["lines"])))
    assert told[0] == told[1] and told[0][2]


def test_a_network_without_classes(tmp_path: Path) -> None:
    ran = tool("bonsai-page", "-", "-o", tmp_path / "none.html", raw=b"hostname a\nend\n")
    assert (ran.returncode, ran.stderr) == (0, b"")
    made = (tmp_path / "none.html").read_text()
    assert "<p>no protocol, 1 router, 0 links, 0 classes of destination prefixes." in made
    assert (
        "There is no class: no router originates a prefix." in made and "<table" not in made and "<script" not in made
    )


@pytest.fixture(scope="module")
def browser() -> Iterator[object]:
    """Chromium without a window and without a network."""
    webdriver = pytest.importorskip(
        "selenium.webdriver", reason="the package python3-selenium is not there: no page is opened in a browser"
    )
    if not shutil.which("chromedriver"):
        pytest.skip("the package chromium-driver is not there: no page is opened in a browser")
    options = webdriver.ChromeOptions()
    for word in (
        "--headless=new",
        "--no-sandbox",
        "--disable-gpu",
        "--window-size=1300,1200",
        "--host-resolver-rules=MAP * ~NOTFOUND",
        "--disable-dev-shm-usage",
    ):
        options.add_argument(word)
    options.binary_location = shutil.which("chromium")
    service = pytest.importorskip("selenium.webdriver.chrome.service").Service(shutil.which("chromedriver"))
    opened = webdriver.Chrome(options=options, service=service)
    yield opened
    opened.quit()


def shown(browser: Any, wanted: str) -> list[str]:
    return browser.execute_script(
        f"return Array.from(document.querySelectorAll({json.dumps(wanted)})).filter(e => e.offsetParent !== null).map(e => e.textContent.trim())"
    )


def test_sorting_searching_and_opening(browser: Any, tmp_path: Path) -> None:
    place = tmp_path / "campus.html"
    place.write_text(page("campus.cfg"))
    browser.get(place.as_uri())
    first = "#classes tbody tr td:first-child"
    assert shown(browser, first)[:2] == ["1", "2"]
    buttons = browser.find_elements("css selector", "#classes th button")
    buttons[7].click()
    buttons[7].click()
    assert shown(browser, first)[:2] == ["2", "4"]
    buttons[0].click()
    assert shown(browser, first)[-3:] == ["14", "15", "16"]
    browser.find_element("id", "search").send_keys("10.20.0.0/24")
    assert shown(browser, first) == ["10"] and shown(browser, "#shown") == ["1 of 16 rows"]
    for address, found in (("10.20.1.1 access2", ["12"]), ("10.20.1.1 access1", []), ("10.20.0.255", ["10"])):
        browser.find_element("id", "search").clear()
        browser.find_element("id", "search").send_keys(address)
        assert shown(browser, first) == found
    browser.find_element("css selector", "#classes tbody tr:not([hidden])").click()
    assert shown(browser, "#open h2") == ["Class 10"]
    assert shown(browser, "#open .groups td:last-child") == ["core1 core2", "dist1", "dist2", "access1", "access2"]
    fills = browser.execute_script(
        "return Object.fromEntries(Array.from(document.querySelectorAll('#open figure:first-child g.node')).filter(n => n.querySelector('rect')).map(n => [n.textContent.trim(), n.querySelector('rect').getAttribute('fill')]))"
    )
    assert fills["core1"] == fills["core2"] != "#ffffff" and fills["dist1"] == "#ffffff" and len(fills) == 6
    assert len(browser.find_elements("css selector", "#open figure:nth-child(2) g.node:has(rect)")) == 5
    browser.find_element("css selector", "#open summary").click()
    assert shown(browser, "#open pre")[0] == compressed("campus.cfg", 10).text.strip()
    browser.find_element("css selector", "#open button.copy").click()
    wait_for(lambda: shown(browser, "#open button.copy") != ["Copy"])
    assert shown(browser, "#open button.copy")[0] in ("Copied", "Selected: copy with the keyboard")


def test_a_name_in_the_address_opens_its_class(browser: Any, tmp_path: Path) -> None:
    place = tmp_path / "campus.html"
    place.write_text(page("campus.cfg"))
    browser.get(place.as_uri() + "#class-12")
    assert shown(browser, "#open h2") == ["Class 12"]


def test_the_fat_tree_of_twenty_is_small_and_opens_soon(browser: Any, tmp_path: Path) -> None:
    text = tmp_path / "fat-tree-20.cfg"
    text.write_text(fat_tree_text(20))
    place = tmp_path / "fat-tree-20.html"
    assert tool("bonsai-page", text, "-o", place).returncode == 0
    assert place.stat().st_size < 5_000_000
    browser.execute_cdp_cmd("Performance.enable", {"timeDomain": "threadTicks"})
    browser.get(place.as_uri())
    assert shown(browser, "#shown") == ["200 of 200 rows"]
    browser.find_elements("css selector", "#classes tbody tr")[3].click()
    assert shown(browser, "#open h2") == ["Class 4"]
    told = browser.execute_cdp_cmd("Performance.getMetrics", {})["metrics"]
    worked = next(one["value"] for one in told if one["name"] == "TaskDuration")
    print(f"the page took {worked:.2f} processor seconds")
    assert worked < 10, "under one on most machines"


@pytest.mark.parametrize("is_proved", [True, False])
def test_the_page_says_which_program_answered(is_proved: bool) -> None:
    text = example("two-routers.cfg")
    program = Identity("0123456789abcdef" * 4, is_proved, "kit-<1>")
    made = page_of(everything(text, rows(text, [compressed("two-routers.cfg", 1)]), None, {"bonsai": program}))
    kind = "the proved program" if is_proved else "a program that is not proved"
    assert f"{kind}, SHA-256 0123456789abcdef, made with kit-&lt;1&gt;." in made
