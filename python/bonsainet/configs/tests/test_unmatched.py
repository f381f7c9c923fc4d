"""Each neighbour without a session has the first rule of a session that it breaks."""
import pytest

from bonsainet.configs.network import read_network
from bonsainet.configs.unmatched import reason

NEAR = "hostname a\ninterface Serial0/0\n ip address 10.0.0.1 255.255.255.252\nrouter bgp 1\n{line}end\n"
FAR = "hostname b\ninterface Serial0/0\n ip address 10.0.0.2 255.255.255.252\n{shut}{process}end\n"
LINE = " neighbor 10.0.0.2 remote-as 2\n"


@pytest.mark.parametrize(
    "line, shut, process, told",
    [
        (LINE + " neighbor 10.0.0.2 shutdown\n", "", "", "the neighbour is shut down here"),
        (" neighbor 10.9.9.9 remote-as 2\n", "", "", "no router of the input has this address"),
        (" neighbor 10.0.0.1 remote-as 2\n", "", "", "the address is one of this router"),
        (LINE, " shutdown\n", "", "Serial0/0 of b has the address and is shut down"),
        (LINE, "", "", "b has no BGP process"),
        (LINE, "", "router bgp 3\n", "the line says AS 2, and b has AS 3"),
        (LINE, "", "router bgp 2\n", "b has no neighbour 10.0.0.1"),
        (LINE, "", "router bgp 2\n neighbor 10.0.0.1 remote-as 7\n", "b says AS 7 of 10.0.0.1, and a has AS 1"),
        (
            LINE,
            "",
            "router bgp 2\n neighbor 10.0.0.1 remote-as 1\n neighbor 10.0.0.1 shutdown\n",
            "the neighbour 10.0.0.1 is shut down at b",
        ),
    ],
)
def test_reasons(line: str, shut: str, process: str, told: str) -> None:
    network = read_network(NEAR.format(line=line) + FAR.format(shut=shut, process=process))
    device, neighbor = network.unmatched[0]
    assert reason(network, device, neighbor) == told


def test_another_subnet() -> None:
    network = read_network(
        NEAR.format(line=LINE).replace("10.0.0.1 ", "10.7.0.1 ") + FAR.format(shut="", process="router bgp 2\n")
    )
    assert reason(network, *network.unmatched[0]) == "this router has no up interface in 10.0.0.0/30, the subnet of b"
