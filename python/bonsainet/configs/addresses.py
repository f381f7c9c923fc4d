"""Addresses by the words of accepted lines. A network names most addresses several times, so words are read once."""
from __future__ import annotations

import functools
import socket
from ipaddress import IPv4Address, IPv4Interface, IPv4Network

KEPT = 1 << 17


@functools.lru_cache(KEPT)
def address_of(word: str) -> IPv4Address:
    """An address. ValueError where the word is none."""
    try:
        # (from bytes it is made much faster than from a word)
        return IPv4Address(socket.inet_pton(socket.AF_INET, word))
    except OSError:
        raise ValueError(f"no address: {word!r}") from None


@functools.lru_cache(KEPT)
def address_at(number: int) -> IPv4Address:
    """An address."""
    return IPv4Address(number)


@functools.lru_cache(KEPT)
def interface_at(number: int, length: int) -> IPv4Interface:
    """The address of an interface, with its subnet."""
    return IPv4Interface((number, length))


def number_of(word: str) -> int:
    """An address as a number. ValueError where the word is none."""
    try:
        return int.from_bytes(socket.inet_pton(socket.AF_INET, word), "big")
    except OSError:
        raise ValueError(f"no address: {word!r}") from None


@functools.lru_cache(KEPT)
def network_of(address: str, mask: str) -> IPv4Network:
    """A prefix."""
    return IPv4Network((int(address_of(address)), length_of(mask)))


@functools.lru_cache(KEPT)
def length_of(mask: str) -> int:
    """The length of a mask that is written as an address."""
    return IPv4Network(f"0.0.0.0/{mask}").prefixlen


def classful_length(address: str) -> int:
    """The length that the first number of an address gives."""
    first = int(address.split(".")[0])
    return 8 if first < 128 else 16 if first < 192 else 24
