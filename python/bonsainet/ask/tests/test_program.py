"""What the program writes is read as plain data."""
from bonsainet.ask.program import Class, Group, Size, classes_of, groups_of, sizes_of, with_places


def test_classes() -> None:
    told = "class 1 prefixes 10.0.0.0/30 origins core1:1 core2:1\nclass 2 prefixes 192.0.2.0/24 192.88.10.0/24 origins provider\n"
    assert classes_of(told) == [
        Class(1, ("10.0.0.0/30",), (("core1", 1), ("core2", 1))),
        Class(2, ("192.0.2.0/24", "192.88.10.0/24"), (("provider", None),)),
    ]


def test_groups() -> None:
    assert groups_of("group 1 origin: core1 core2\ngroup 2 lone: dist1\n") == [
        Group(1, True, False, ("core1", "core2")),
        Group(2, False, True, ("dist1",)),
    ]


def test_sizes() -> None:
    assert sizes_of("class 1: 20 routers 32 links 6 groups 5 links\n") == [Size(1, 20, 32, 6, 5)]


def test_a_text_is_named_once() -> None:
    assert with_places(["F", "1", "route", "F,S", "F"], {"F": "/1", "S": "/2"}) == ["/1", "1", "route", "F,S", "F"]
    assert with_places(["check", "F", "1", "S"], {"F": "/1", "S": "/2"}) == ["check", "/1", "1", "/2"]
