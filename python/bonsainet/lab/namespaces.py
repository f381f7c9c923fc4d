"""The namespaces of a lab's routers and the wires between them, made and changed by `ip` inside of the enclosure."""
from __future__ import annotations

import shutil
import subprocess
from pathlib import Path

from bonsainet.lab.plan import Plan

RUN = Path("/run")
VARIABLE = Path("/var/tmp")
IP = shutil.which("ip") or "/usr/sbin/ip"
# Linux lets a socket join 20 multicast groups, and ospfd joins one at each of its interfaces.
MOST_GROUPS = 4096


class LabFault(Exception):
    """The lab could not be set up or did not come to rest, with the reason."""


def link_commands(plan: Plan) -> str:
    """The batch for `ip` that makes the namespaces and the wires. A wire is a veth pair, or a bridge."""
    lines = [f"netns add {router.space}" for router in plan.routers]
    made = 0

    def plug(space: str, port: str, bridge: str | None = None) -> None:
        nonlocal made
        made += 1
        lines.append(f"link add name p{made} type veth peer name {port} netns {space}")
        lines.append(f"link set p{made} {f'master {bridge} ' if bridge else ''}up")

    for number, (wire, is_bridge) in enumerate(zip(plan.wires, plan.bridges)):
        if not is_bridge:
            (low, low_port, _), (high, high_port, _) = wire
            near, far = hardware_address(number, 0), hardware_address(number, 1)
            lines.append(
                f"link add name {low_port} address {near} netns {low} type veth peer name {high_port} address {far} netns {high}"
            )
        else:
            lines.append(f"link add name b{number} type bridge")
            lines.append(f"link set b{number} up")
            for space, port, _ in wire:
                plug(space, port, f"b{number}")
    for router in plan.routers:
        for port in router.stubs:
            plug(router.space, port)
    return "".join(f"{line}\n" for line in lines)


def hardware_address(wire: int, end: int) -> str:
    """The hardware address of an end of a wire."""
    return f"02:00:{wire >> 16:02x}:{wire >> 8 & 255:02x}:{wire & 255:02x}:{end:02x}"


def port_commands(plan: Plan) -> dict[str, str]:
    """For each namespace the batch that brings its ports up, and names the other ends of pairs.

    The table of hardware addresses is one for all namespaces, and holds 1,024 that were asked for; those that are named
    do not count.
    """
    lines = {router.space: [f"link set {name} up" for name in ["lo", *router.stubs]] for router in plan.routers}
    for number, (wire, is_bridge) in enumerate(zip(plan.wires, plan.bridges)):
        for end, (space, port, _) in enumerate(wire):
            lines[space].append(f"link set {port} up")
            if not is_bridge:
                far = wire[1 - end][2]
                lines[space].append(
                    f"neigh replace {far} lladdr {hardware_address(number, 1 - end)} dev {port} nud permanent"
                )
    return {space: "".join(f"{line}\n" for line in texts) for space, texts in lines.items()}


def batch(lines: str, *words: str) -> None:
    """Runs a batch of `ip` commands."""
    ran = subprocess.run([IP, *words, "-batch", "-"], input=lines, capture_output=True, text=True, check=False)
    if ran.returncode:
        raise LabFault(f"ip: {ran.stderr.strip().splitlines()[0] if ran.stderr.strip() else ran.returncode}")


def set_up(plan: Plan) -> None:
    """Makes the namespaces, the wires and the ports, which come up when zebra has given them addresses."""
    # (daemons keep buffers of their logs by number below the second, and numbers are those of this lab)
    for place in (RUN, VARIABLE):
        subprocess.run(["mount", "-t", "tmpfs", "-o", "mode=0755", "tmpfs", str(place)], check=True)
    (RUN / "netns").mkdir()
    Path("/proc/sys/net/ipv6/conf/default/disable_ipv6").write_text("1")
    batch(link_commands(plan))
    for space, lines in port_commands(plan).items():
        batch(lines, "-n", space)
        inside(space, "sh", "-c", f"echo {MOST_GROUPS} > /proc/sys/net/ipv4/igmp_max_memberships")


def inside(space: str, *words: str) -> None:
    """Runs a command in a namespace."""
    subprocess.run(
        ["nsenter", f"--net={RUN}/netns/{space}", "--", *words],
        check=True,
        stdin=subprocess.DEVNULL,
        capture_output=True,
    )


def set_ports(plan: Plan, ports: list[tuple[str, str]], are_up: bool) -> None:
    """Takes ports down, each a namespace and an interface there, or brings them up again. A port that goes down forgets
    the address that was named for its other end."""
    lines: dict[str, list[str]] = {}
    for space, port in ports:
        lines.setdefault(space, []).append(f"link set {port} {'up' if are_up else 'down'}")
    if are_up:
        known = port_commands(plan)
        for space, port in ports:
            lines[space] += [line for line in known[space].splitlines() if line.endswith(f" dev {port} nud permanent")]
    for space, batched in lines.items():
        batch("".join(f"{line}\n" for line in batched), "-n", space)
