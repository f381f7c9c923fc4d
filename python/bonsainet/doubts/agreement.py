"""Doubts about links whose ends say different things in lines that Bonsai passes over: real routers form none of these.

OSPF neighbours must agree on the hello and the dead interval (RFC 2328, section 10.5), on the type of authentication
and its keys (appendix D) and on the MTU (section 10.6). A BGP session with a password on one end alone, or with two
passwords, does not come up (RFC 2385), nor one that both ends wait for. Frames need one tag (IEEE 802.1Q) and one
encapsulation, and an access list may drop what the other end sends. Keys are compared where they can be read, and
never written.
"""
from __future__ import annotations

from collections.abc import Callable, Iterator

from bonsainet.doubts.finding import Doubt, doubt
from bonsainet.doubts.packet_filters import blocked_by
from bonsainet.configs.network import End, Link, Network
from bonsainet.configs.profile import Interface
from bonsainet.configs.text import Line

HELLO = 10
DEADS_PER_HELLO = 4
MTU = "1500"
AUTHENTICATIONS = {(): "simple", ("message-digest",): "message-digest", ("null",): "none"}
KEYS = {
    (): ("ip", "ospf", "authentication-key"),
    ("message-digest",): ("ip", "ospf", "message-digest-key"),
}
BUNDLES = {
    frozenset({"on"}),
    frozenset({"active"}),
    frozenset({"active", "passive"}),
    frozenset({"desirable"}),
    frozenset({"desirable", "auto"}),
}
DIRECT = 30
ENCAPSULATIONS = ("ppp", "hdlc", "frame-relay")
SECRETS = ("password", "authentication-key", "md5")
SALT = "dsfd;kfoA,.iyewrkldJKDHSUBsgvca69834ncxv9873254k;fg87"
NO_LINK = "real routers form no link"


def doubts_of_agreement(network: Network) -> Iterator[Doubt]:
    """All of them, link by link. Each is at the end whose line comes last, else at the one that has a line. Of a
    stub's own settings nothing is known."""
    settings: tuple[Setting, ...] = (
        (_password,) if network.protocol == "bgp" else (_hello, _dead, _authentication, _mtu)
    )
    for link in network.links:
        if link.low.device.is_stub or link.high.device.is_stub:
            continue
        for setting in settings:
            yield from _compared(setting, link.low, link.high)
        for setting in (_tag, _encapsulation):
            yield from _both(setting, link)
        if link.subnet.prefixlen >= DIRECT:
            yield from _both(_speed, link)
            yield from _bundled(link)
        if network.protocol == "bgp":
            yield from _secrets(link, "the password", _passwords)
            yield from _waiting(link)
        else:
            yield from _secrets(link, "the key", _plain_keys)
            yield from _secrets(link, "the identifier or the key of message-digest", _digest_keys)
            yield from _keyless(link)
        yield from _filtered(network, link)


Setting = Callable[[End], tuple[str, str, Line | None]]
Secrets = Callable[[End], tuple[set[tuple[str, str]] | None, Line | None]]


def _compared(setting: Setting, low: End, high: End) -> Iterator[Doubt]:
    (name, mine, my_line), (_, other, other_line) = setting(low), setting(high)
    if mine != other:
        at, line, far, own, theirs = (
            (high, other_line, low, other, mine) if other_line else (low, my_line, high, mine, other)
        )
        told = f"{name} is {own} here and {theirs} on {_name(far)}: {NO_LINK}"
        yield doubt("no-agreement", at.device.name, _without_secret(line), told)


def _name(end: End) -> str:
    return f"{end.interface.name} of {end.device.name}"


def _without_secret(line: Line | None) -> Line | None:
    """The line up to a password or a key."""
    words = line.words if line else []
    at = next((place for place, word in enumerate(words) if word in SECRETS), None)
    return line.with_text(" ".join([*words[: at + 1], "..."])) if line and at is not None else line


def _both(setting: Setting, link: Link) -> Iterator[Doubt]:
    """A doubt where the ends differ in what each of them has."""
    if setting(link.low)[1] and setting(link.high)[1]:
        yield from _compared(setting, link.low, link.high)


def _last(lines: list[Line], *heads: tuple[str, ...]) -> tuple[tuple[str, ...], Line] | None:
    """The words behind the head, and the line, of the last line that begins with one of these heads."""
    found = [
        (tuple(line.words[len(head) :]), line)
        for line in lines
        for head in heads
        if tuple(line.words[: len(head)]) == head
    ]
    return found[-1] if found else None


def _hello(end: End) -> tuple[str, str, Line | None]:
    seconds, line = _hello_of(end.interface)
    return "the hello interval", f"{seconds} s", line


def _hello_of(interface: Interface) -> tuple[int, Line | None]:
    found = _last(interface.ignored, ("ip", "ospf", "hello-interval"))
    return (int(found[0][0]), found[1]) if found and found[0][:1] and found[0][0].isdigit() else (HELLO, None)


def _dead(end: End) -> tuple[str, str, Line | None]:
    found = _last(end.interface.ignored, ("ip", "ospf", "dead-interval"))
    if found and found[0]:
        return "the dead interval", "1 s" if found[0][0] == "minimal" else f"{found[0][0]} s", found[1]
    seconds, line = _hello_of(end.interface)
    return "the dead interval", f"{DEADS_PER_HELLO * seconds} s", line


def _authentication(end: End) -> tuple[str, str, Line | None]:
    words, line = _authentication_of(end)
    return "the authentication", AUTHENTICATIONS.get(words, " ".join(words[:1])), line


def _authentication_of(end: End) -> tuple[tuple[str, ...], Line | None]:
    """The words behind the line of authentication that counts, `null` without one."""
    found = _last(end.interface.ignored, ("ip", "ospf", "authentication"))
    return found or (("null",), None)


def _keyless(link: Link) -> Iterator[Doubt]:
    """A doubt where both ends have one type of authentication, and one of them alone has a key for it."""
    words, _ = _authentication_of(link.low)
    head = KEYS.get(words)
    if head is None or words != _authentication_of(link.high)[0]:
        return
    mine, theirs = (_last(end.interface.ignored, head) for end in (link.low, link.high))
    if bool(mine) != bool(theirs):
        at, far = (link.low, link.high) if mine else (link.high, link.low)
        line = (mine or theirs or ((), None))[1]
        told = f"a key is given here and none on {_name(far)}: {NO_LINK}"
        yield doubt("no-agreement", at.device.name, _without_secret(line), told)


def _mtu(end: End) -> tuple[str, str, Line | None]:
    """The MTU of IP: its own, else that of the interface or of the one that carries it."""
    own = end.interface.ignored
    carrier = _carrier(end)
    found = _last(own, ("ip", "mtu")) or _last(own, ("mtu",)) or (_last(carrier.ignored, ("mtu",)) if carrier else None)
    return ("the MTU", found[0][0], found[1]) if found and found[0] else ("the MTU", MTU, None)


def _password(end: End) -> tuple[str, str, Line | None]:
    found = _password_line(end)
    return "a password", "given" if found else "not given", found


def _password_line(end: End) -> Line | None:
    lines = end.neighbor.ignored if end.neighbor else []
    return next((line for line in lines if line.words[2:3] == ["password"]), None)


def _tag(end: End) -> tuple[str, str, Line | None]:
    """The tag of a subinterface, empty where it has none: a switch between the ends may put it on."""
    found = _last(end.interface.ignored, ("encapsulation", "dot1Q"), ("encapsulation", "dot1q"))
    return ("the tag of frames", " ".join(found[0]), found[1]) if found and found[0] else ("", "", None)


def _carrier(end: End) -> Interface | None:
    """The interface that carries a subinterface, none where it is no subinterface."""
    main, point, _ = end.interface.name.partition(".")
    return next((one for one in end.device.interfaces if point and one.name == main), None)


def _speed(end: End) -> tuple[str, str, Line | None]:
    """The speed that a line fixes, empty where both ends agree on one."""
    found = _last((_carrier(end) or end.interface).ignored, ("speed",))
    is_fixed = found is not None and len(found[0]) == 1 and found[0][0].isdecimal()
    return ("the speed", f"{found[0][0]} Mbit/s", found[1]) if found and is_fixed else ("", "", None)


def _bundled(link: Link) -> Iterator[Doubt]:
    """A doubt where the members of two bundles can make no bundle: both ends wait, or they speak two protocols."""
    modes = [_modes(end) for end in (link.low, link.high)]
    pairs = {frozenset((mine, theirs)) for mine in modes[0] for theirs in modes[1]}
    if pairs and not pairs & BUNDLES:
        line = next(iter(modes[1].values()))
        told = f"its ports have the mode {' '.join(sorted(modes[1]))} here and {' '.join(sorted(modes[0]))} at {_name(link.low)}: they make no bundle, and {NO_LINK}"
        yield doubt("no-agreement", link.high.device.name, line, told)


def _modes(end: End) -> dict[str, Line]:
    """The modes of the ports of a bundle, each with a line that gives it."""
    name = (_carrier(end) or end.interface).name
    lines = [line for one in end.device.interfaces if not one.is_shut for line in one.ignored]
    given = [line for line in lines if line.words[:1] == ["channel-group"] and line.words[2:3] == ["mode"]]
    return {line.words[3]: line for line in given if name == f"Port-channel{line.words[1]}" and len(line.words) > 3}


def _encapsulation(end: End) -> tuple[str, str, Line | None]:
    """The encapsulation of a serial line: HDLC where none is given. Empty on other interfaces."""
    found = _last(end.interface.ignored, ("encapsulation",))
    if found and found[0][:1] and found[0][0] in ENCAPSULATIONS:
        return "the encapsulation", found[0][0], found[1]
    return ("the encapsulation", "hdlc", None) if end.interface.kind == "Serial" else ("", "", None)


def _waiting(link: Link) -> Iterator[Doubt]:
    """A doubt where both ends of a session wait for the other one (RFC 4271, section 8)."""
    lines = [_passive(end) for end in (link.low, link.high)]
    if all(lines):
        told = f"this end waits for the other one, and so does {_name(link.low)}: {NO_LINK}"
        yield doubt("no-agreement", link.high.device.name, lines[1], told)


def _passive(end: End) -> Line | None:
    lines = end.neighbor.ignored if end.neighbor else []
    wanted = ["transport", "connection-mode", "passive"]
    return next((line for line in lines if line.words[2:5] == wanted or line.words[2:3] == ["passive"]), None)


def _secrets(link: Link, name: str, secrets: Secrets) -> Iterator[Doubt]:
    """A doubt where both ends have secrets that can be read, and none in common."""
    (mine, _), (theirs, line) = secrets(link.low), secrets(link.high)
    if mine and theirs and not mine & theirs:
        told = f"{name} is another one than that on {_name(link.low)}: {NO_LINK}"
        yield doubt("no-agreement", link.high.device.name, _without_secret(line), told)


def _passwords(end: End) -> tuple[set[tuple[str, str]] | None, Line | None]:
    line = _password_line(end)
    return (_read([("", line.words[3:])]), line) if line else (None, None)


def _plain_keys(end: End) -> tuple[set[tuple[str, str]] | None, Line | None]:
    found = _last(end.interface.ignored, ("ip", "ospf", "authentication-key"))
    return (_read([("", list(found[0]))]), found[1]) if found else (None, None)


def _digest_keys(end: End) -> tuple[set[tuple[str, str]] | None, Line | None]:
    lines = [line for line in end.interface.ignored if line.words[:3] == ["ip", "ospf", "message-digest-key"]]
    named = [(line.words[3], line.words[5:]) for line in lines if line.words[4:5] == ["md5"]]
    return (_read(named), lines[-1]) if lines and len(named) == len(lines) else (None, None)


def _read(named: list[tuple[str, list[str]]]) -> set[tuple[str, str]] | None:
    """The secrets by their names, or none where one of them cannot be read."""
    found = {(name, secret) for name, words in named if (secret := _secret(words)) is not None}
    return found if len(found) == len({name for name, _ in named}) else None


def _secret(words: list[str]) -> str | None:
    """A secret as it was typed: plain, or of type 7, which hides it with a known salt. None for other types."""
    if words[:1] == ["0"] and len(words) > 1:
        return " ".join(words[1:])
    if words[:1] == ["7"] and len(words) == 2:
        return _of_type_7(words[1])
    if len(words) > 1 and words[0].isdigit():
        return None
    return " ".join(words) or None


def _of_type_7(text: str) -> str | None:
    try:
        start, hidden = int(text[:2]), bytes.fromhex(text[2:])
    except ValueError:
        return None
    return "".join(chr(value ^ ord(SALT[(start + place) % len(SALT)])) for place, value in enumerate(hidden))


def _filtered(network: Network, link: Link) -> Iterator[Doubt]:
    """A doubt where an access list drops what one end sends to the other."""
    what = "OSPF" if network.protocol == "ospf" else "BGP"
    for end, far in ((link.low, link.high), (link.high, link.low)):
        line = blocked_by(end, far, network.protocol)
        if line:
            yield doubt(
                "no-agreement", end.device.name, line, f"this access list drops {what} from {_name(far)}: {NO_LINK}"
            )
