"""Why a network is refused, in the field's words."""
from __future__ import annotations

import re

NAMES = {
    "internal-peer": "internal BGP",
    "shared-as": "shared AS number",
    "multihop": "session over several hops",
    "ipv6-peer": "IPv4 over IPv6 neighbours",
    "vrf-leak": "routes between tables",
    "labeled-unicast": "labelled routes",
    "ospf-cost": "speed of a link not known",
    "secondary": "overlapping addresses on one interface",
    "redistribute": "redistribution that sets something",
    "network": "`network` line over an overlapping prefix or a route that can fail",
    "network-map": "`network` line whose map sets something",
    "origin-communities": "communities from the start that an out map looks at",
    "as-path": "AS path lists",
    "weight": "weights",
    "undefined": "undefined map",
    "maximum-prefix": "limit on prefixes",
    "ospf-network-type": "OSPF network types",
}
KINDS = {
    "MixedProtocols": "BGP and OSPF in one network",
    "OtherArea": "several OSPF areas",
    "SharedAddress": "one address on two routers",
    "PrependForm": "prepended numbers of others",
}
HEADS = (
    (r"ip route\b", "static routes"),
    (r"redistribute\b", "redistribution"),
    (r"neighbor default-originate|default-information", "default route originated"),
    (r"aggregate-address\b|neighbor unsuppress-map", "aggregates"),
    (
        r"neighbor (local-as|remove-private-AS|as-override|allowas-in)|set as-path|bgp reject-as-sets",
        "changed AS paths",
    ),
    (r"bgp confederation", "confederations"),
    (r"set (ip )?next-hop|set sr-te", "changed next hops"),
    (r"set metric", "MED"),
    (r"neighbor (weight|soo)|set weight", "weights"),
    (
        r"rd\b|rt\b|vnc\b|rfp\b|prefix vn|response-lifetime|exit-vnc|vrf-policy|enable-resolve|label vpn|import|export",
        "VPN",
    ),
    (r"router bgp view|neighbor (route-server-client|route-reflector)", "route servers"),
    (r"network .*route-map", "`network` line whose map sets something"),
    (r"neighbor advertise-map|neighbor addpath|bgp listen", "conditional, additional or dynamic neighbours"),
    (r"(set|match|bgp) (community|alias|large-community)|ip large-community", "communities outside of the profile"),
)


def reason_of(name: str, text: str, kind: str) -> str:
    """A refusal's reason in a few words. `kind` is that of a refusal by the program."""
    if name != "program":
        return NAMES.get(name, name)
    if kind in KINDS:
        return KINDS[kind]
    words = " ".join([word for word in text.split() if not re.search(r"\d", word)][:4])
    return next((told for head, told in HEADS if re.match(head, words)), f"`{words}`: {kind}")
