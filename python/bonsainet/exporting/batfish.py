"""A snapshot for Batfish: the configurations for IOS as `configs/NAME.cfg`, each with a first line that names the
format.

What Batfish does with them is known from its documents, and was not tried.
"""
from __future__ import annotations

from collections import Counter

from bonsainet.exporting import ios
from bonsainet.exporting.writer import Exported, NotExported, Writer
from bonsainet.configs.network import Network

FORMAT = "!RANCID-CONTENT-TYPE: cisco"
RULES = {
    **ios.RULES,
    "format": "Batfish guesses the format of a file unless its first line names it.",
}


def export(network: Network) -> Exported:
    """The snapshot of a network. NotExported where two names differ by capitals alone, which Batfish takes for one."""
    twice = [name for name, count in Counter(device.name.lower() for device in network.devices).items() if count > 1]
    if twice:
        raise NotExported(f"Batfish takes host names in small letters, and several routers are {twice[0]}")
    made = ios.export(network)
    exported = Exported({}, made.changes, made.doubts)
    for device in network.devices:
        Writer(RULES, exported).add(FORMAT, device.line, "format")
        exported.files[f"configs/{device.name}.cfg"] = f"{FORMAT}\n{made.files[f'{device.name}.cfg']}"
    return exported
