"""Texts are cut into routers and stanzas, and written back as they were."""
from hypothesis import given
from hypothesis import strategies as st

from bonsainet.configs.reading import device_of, devices_of
from bonsainet.configs.text import Place, read_text, text_of

LINE = st.sampled_from(
    ["hostname a", "interface Vlan1", " shutdown", "!", "", "router bgp 1", " network 10.0.0.0", "end"]
)


def test_routers_have_names_and_places() -> None:
    routers = read_text("hostname a\ninterface Vlan1\n shutdown\nend\nhostname b\nend\n", "net.cfg")
    assert [router.name for router in routers] == ["a", "b"]
    assert routers[0].stanzas[1].body[0].place == Place("net.cfg", 3)


@given(st.lists(LINE))
def test_what_is_read_is_written_back(lines: list[str]) -> None:
    text = "".join(f"{line}\n" for line in [*lines, "end"])
    assert text_of(read_text(text, "net.cfg")) == text


@given(st.lists(st.one_of(LINE, st.sampled_from([" ! member b", "hostname b", "\tshutdown", " end", "bogus"]))))
def test_devices_are_those_of_the_routers(lines: list[str]) -> None:
    text = "hostname c\n" + "".join(f"{line}\n" for line in lines)
    routers = [router for router in read_text(text, "net.cfg") if router.stanzas]
    found = [device for device in devices_of(text, "net.cfg") if device.line.text != "end"]
    assert found == [device_of(router) for router in routers]
    assert [line.words for device in found for line in device.ignored] == [
        line.text.split() for device in found for line in device.ignored
    ]
