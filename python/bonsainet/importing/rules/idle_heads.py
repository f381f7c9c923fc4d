"""Heads of lines without bearing on the IPv4 routes of BGP and OSPF at rest, by subject, each with its reason.

Scopes are `top` (with all lines of the stanza), `interface`, `bgp`, `ospf` and `entry`. In a head `*` stands for any
word. Heads that the program ignores by itself are listed only where FRR writes them otherwise.
"""
from __future__ import annotations

import dataclasses

from bonsainet.importing.rule import Rule, rule


@dataclasses.dataclass(frozen=True)
class Subject:
    """Heads that one reason covers."""

    rule: Rule
    top: tuple[str, ...] = ()
    interface: tuple[str, ...] = ()
    bgp: tuple[str, ...] = ()
    ospf: tuple[str, ...] = ()
    entry: tuple[str, ...] = ()

    def heads(self, scope: str) -> tuple[str, ...]:
        """The heads of a scope."""
        return getattr(self, scope)


def _heads(text: str) -> tuple[str, ...]:
    return tuple(head.strip() for head in text.replace("\n", " ").split("|") if head.strip())


TIMERS = Subject(
    rule(
        "timers",
        "timers, liveness and restarts say when routes change, and not which routes are held at rest",
        "RFC 4271 section 10, RFC 2328 section 9, RFC 5880",
    ),
    top=_heads("bfd | bfd-template | bgp route-map delay-timer | ip bfd | ip sla | no bfd | track"),
    interface=_heads(
        "bfd | carrier-delay | dampening | ip ospf bfd | ip ospf dead-interval | ip ospf flood-reduction | ip ospf "
        "graceful-restart | ip ospf hello-interval | ip ospf lls | ip ospf resync-timeout | ip ospf retransmit-interval | ip "
        "ospf transmit-delay | link debounce | link-detect | no bfd | no link-detect | udld"
    ),
    bgp=_heads(
        "bgp conditional-advertisement timer | bgp default-originate timer | bgp fast-external-fallover | bgp graceful-restart "
        "| bgp graceful-restart-disable | bgp hard-administrative-reset | bgp keepalive | bgp long-lived-graceful-restart | bgp "
        "nexthop trigger | bgp refresh | bgp scan-time | bgp session-dscp | bgp slow-peer | bgp tcp-keepalive | "
        "bgp update-delay | coalesce-time | neighbor * bfd | neighbor * delayopen | neighbor * fall-over | neighbor * "
        "graceful-restart | neighbor * graceful-restart-disable | neighbor * graceful-restart-helper | neighbor * ha-mode | "
        "neighbor * slow-peer | neighbor * timers | neighbor * update-delay | no bgp fast-external-fallover | no bgp "
        "graceful-restart | no bgp hard-administrative-reset | read-quanta | update-delay | write-quanta"
    ),
    ospf=_heads(
        "bfd | graceful-restart | ispf | lsa-group-pacing | max-metric router-lsa on-startup | no nsf | nsf | nsr | "
        "process-min-time | queue-depth | refresh timer | timers"
    ),
)
SESSION = Subject(
    rule(
        "session",
        "how a session is carried has no bearing on the routes that it carries",
        "RFC 4271 section 4.2, RFC 5492, RFC 4893",
    ),
    bgp=_heads(
        "bgp asnotation | bgp cluster-id | bgp consistency-checker | bgp default show-hostname | bgp default "
        "show-nexthop-hostname | bgp enforce-first-as | bgp log-neighbor-changes | bgp router-id | bgp shutdown-message | bgp "
        "snmp | bgp soft-reconfig-backup | bgp transport | bgp upgrade-cli | neighbor * capability "
        "dynamic | neighbor * capability extended-nexthop | neighbor * capability orf | neighbor * capability route-refresh | neighbor * cluster-id | neighbor * "
        "disable-addpath-rx | neighbor * disable-link-bw-encoding-ieee | neighbor * dont-capability-negotiate | neighbor * "
        "enforce-first-as | neighbor * extended-optional-parameters | neighbor * log-neighbor-changes | neighbor * "
        "path-mtu-discovery | neighbor * sender-as-path-loop-detection | neighbor * soft-reconfiguration | neighbor * solo | "
        "neighbor * strict-capability-match | neighbor * tcp-mss | no bgp enforce-first-as | no bgp log-neighbor-changes | no "
        "neighbor * enforce-first-as"
    ),
)
MULTICAST = Subject(
    rule("multicast", "multicast trees follow the unicast routes and make none", "RFC 7761, RFC 3376"),
    top=_heads(
        "igmp | ip igmp | ip mroute | ip msdp | ip multicast | ip multicast-routing | ip pim | no ip igmp | router pim"
    ),
    interface=_heads("ip igmp | ip mfib | ip mroute-cache | ip multicast | ip pim | no ip mroute-cache"),
)
GATEWAYS = Subject(
    rule(
        "gateways",
        "a virtual gateway address serves hosts and announces no route",
        "RFC 5798; Cisco IOS First Hop Redundancy Protocols",
    ),
    top=_heads("fhrp | no fhrp"),
    interface=_heads("fhrp | glbp | standby | vrrp"),
)
MANAGEMENT = Subject(
    rule(
        "management",
        "logging, accounts, monitoring and remote management make no route",
        "Cisco IOS Network Management; FRR user guide, basic commands",
    ),
    top=_heads(
        "agentx | ap | app-hosting | avb | banner | bgp send-extra-data | buffers | call-home | cdp | cli | config-register | "
        "configuration | debug | device-tracking | dump | event | flow | frr defaults | frr version | iox | ip admission "
        "| ip arp | ip default-gateway | ip device | ip finger | ip flow-cache | ip flow-export | ip flow-top-talkers | ip "
        "gratuitous-arps | ip host | ip icmp | ip identd | ip local pool | ip nbar | ip nht | ip options | ip radius | ip rcmd "
        "| ip reflexive-list | ip scp | ip tacacs | ip telnet | key | license | location | log | macro | memory | metadata | "
        "mmi | monitor | nat64 | netconf | netconf-yang | no aaa | no bgp send-extra-data | no cdp | no crypto | no debug | no "
        "errdisable | no ip finger | no ip gratuitous-arps | no ip icmp | no ip rcmd | no lldp | no log | no logging | no "
        "memory-size | no mmi | no platform | no pnp | no service | no setup | no snmp-server | no tftp-server | no vstack | no "
        "zebra | parser | password | pnp | process | product | profile | remote-management | restconf | rmon | sampler | setup "
        "| software | subscriber | system | telemetry | tftp-server | transceiver | upgrade | virtual-service | vlan | vstack | "
        "wireless | wsma | zebra"
    ),
    interface=_heads(
        "bandwidth-percent | device-tracking | flow | history | hold-queue | ip accounting | ip device | ip flow | ip nbar | ip "
        "rtp | ip sticky-arp | lldp | logging | monitor | no ip gratuitous-arps | no logging | no ntp | no snmp | ntp | peer "
        "default | snmp | source template | trust | tx-ring-limit"
    ),
)
LAYER_2 = Subject(
    rule(
        "layer-2",
        "how frames are carried on the wire makes no route; links are taken to be up",
        "IEEE 802.1, 802.3; Cisco IOS Interface and LAN Switching",
    ),
    top=_heads(
        "authentication | bridge | bridge-domain | card | channel-group | controller | crypto isakmp | cts | diagnostic | dot1x "
        "| errdisable | ethernet | fabric | frame-relay | hw-switch | interface-template | isdn | l2vpn | lacp | mac | "
        "mac-address-table | mls | network-clock | no cts | no dot1x | no mac | no mls | no power | no spanning-tree | no vtp | "
        "port-channel | power | pseudowire-class | qos | rep | stack-power | stackwise-virtual | storm-control | switch | "
        "system mtu | udld | vlan"
    ),
    interface=_heads(
        "access-session | admin-grp | authentication | auto | autostate | ava-bw | beacon | bridge-domain | bridge-group | "
        "cablelength | channel-protocol | clocking | cts | dialer | dot1q | dot1x | dsl | duplex | enable | exit-link-params | "
        "fair-queue | fec | flowcontrol | framing | interface-type | lacp | linecode | link-params | mab | mac-address | macro "
        "| max-bw | max-rsv-bw | mdix | metric | mtu | negotiation | neighbor * as | no auto | no autostate | no cdp | no cts | "
        "no duplex | no fair-queue | no keepalive | no mdix | no negotiation | no power | no udld | plim | ppp | private-vlan | "
        "rep | res-bw | rewrite | service instance | speed | switchport | t1 | transmit-interface | udld | unrsv-bw | use-bw | "
        "vlan-id | xconnect"
    ),
)
SECURITY = Subject(
    rule(
        "filters-and-keys",
        "packet filters and keys are not modelled: they drop packets, and both ends of a link are taken to agree",
        "the profile; RFC 2328 appendix D",
    ),
    top=_heads(
        "ip access-list | ip dns | ip inspect | ip ips | ip nat | ip port-map | ip tcp | ip verify | key-chain | no ip dns | no "
        "ip source-route | object-group | parameter-map | zone | zone-pair"
    ),
    interface=_heads(
        "crypto | ip access-group | ip admission | ip arp | ip broadcast-address | ip dhcp | ip directed-broadcast | ip inspect "
        "| ip ips | ip load-sharing | ip local-proxy-arp | ip mask-reply | ip mtu | ip nhrp | ip options | ip ospf "
        "authentication | ip ospf message-digest-key | ip ospf mtu-ignore | ip proxy-arp | ip redirects "
        "| ip tcp | ip unreachables | ip verify | ip virtual-reassembly | ip wccp | no ip dhcp | no ip local-proxy-arp | no ip "
        "mask-reply | no ip nat | no ip ospf authentication | no ip virtual-reassembly | tunnel key | zone-member"
    ),
    ospf=_heads("no ttl-security"),
)
QUALITY = Subject(
    rule("quality-of-service", "queues and marks choose among packets and not among routes", "RFC 2474"),
    top=_heads("access-list rate-limit | auto qos | class-map | ip rsvp | map-class | mls qos | policy-map"),
    interface=_heads(
        "auto qos | ip rsvp | max-reserved-bandwidth | mls qos | no qos | priority-queue | qos | random-detect | rate-limit | "
        "service-policy | srr-queue | traffic-shape | tx-queue | wrr-queue"
    ),
)
LABELS = Subject(
    rule(
        "labels", "labels follow the routes and make none, as long as no tunnel announces itself", "RFC 5036, RFC 8402"
    ),
    top=_heads("mpls ip | mpls label | mpls ldp | mpls oam | no mpls ip | no mpls ldp | router ldp | segment-routing"),
    interface=_heads("ip ospf mpls | link-params | mpls | no ip ospf mpls | no mpls"),
    ospf=_heads(
        "capability lls | capability opaque | fast-reroute | mpls ldp | mpls ldp-sync | mpls traffic-eng area | mpls "
        "traffic-eng router-id | mpls-te | no capability opaque | no mpls | no mpls ldp-sync | ospf opaque-lsa | router-info | "
        "segment-routing"
    ),
)
MULTIPATH = Subject(
    rule(
        "multipath",
        "how many equal routes a router installs does not change which route it holds; the profile forwards to all routes of one key, and a router with several paths also to those that differ in communities or lone routers",
        "RFC 4271 section 9.1.2.2, RFC 2328 section 16.1",
    ),
    bgp=_heads("bgp bestpath as-path multipath-relax | bgp bestpath bandwidth | maximum-paths | no maximum-paths"),
    ospf=_heads("maximum-paths | no maximum-paths | traffic-share"),
)
TIES = Subject(
    rule(
        "tie-breaks",
        "among routes of one preference and length the profile compares communities and lone routers where devices compare age and identifiers; which of two routes of one key a router holds it leaves open",
        "RFC 4271 section 9.1.2.2, f and g",
    ),
    bgp=_heads("bgp bestpath compare-originator-id | bgp bestpath compare-routerid"),
)
DAMPENING = Subject(
    rule(
        "dampening",
        "dampening holds back routes that come and go, and at rest none does",
        "RFC 2439; Cisco IOS BGP, `bgp dampening`",
    ),
    bgp=_heads("bgp dampening"),
)
FORWARDING = Subject(
    rule("forwarding", "it is the default that a router forwards", "Cisco IOS IP Routing; FRR user guide, zebra"),
    top=_heads(
        "allow-reserved-ranges | ip cef | ip classless | ip forwarding | ip route-cache | ip routing | ip subnet-zero | no ip "
        "cef | no ip route-cache | service integrated-vtysh-config"
    ),
    interface=_heads("ip cef | ip forwarding | ip route-cache | ip unreachables | no ip unreachables"),
    ospf=_heads(
        "compatible rfc1583 | ignore lsa mospf | log-adjacency-changes | no compatible rfc1583 | no log-adjacency-changes | "
        "ospf abr-type | ospf log-adjacency-changes | ospf router-id | ospf send-extra-data | snmp"
    ),
    bgp=_heads(
        "bgp default ipv4-vpn | bgp default ipv6-unicast | bgp default ipv6-vpn | bgp default l2vpn-evpn | bgp dmzlink-bw | bgp "
        "redistribute-internal | no bgp default ipv6-unicast"
    ),
)

SUBJECTS = (
    TIMERS,
    SESSION,
    MULTICAST,
    GATEWAYS,
    MANAGEMENT,
    LAYER_2,
    SECURITY,
    QUALITY,
    LABELS,
    MULTIPATH,
    TIES,
    DAMPENING,
    FORWARDING,
)
