"""The names of link types and of protocols, with their numbers."""
from ..build import (
    AVS, CISCO_HDLC, COOKED, COOKED2, ETHERNET, FRAME_RELAY, IEEE80211, INFINIBAND, IPNET, LOOPBACK, NFLOG, OPENBSD, OTHER_LINK, PFLOG,
    PKTAP, PPI, PPP, PPP_HDLC, PPP_OVER_ETHERNET, PRISM, RADIOTAP, RAW
)

# The names of link types in the summary.
LINK_NAMES = {ETHERNET: "Ethernet", RAW: "raw IP", LOOPBACK: "BSD loopback", OPENBSD: "OpenBSD loopback", COOKED: "Linux cooked",
              COOKED2: "Linux cooked version 2", PPP: "PPP", PPP_HDLC: "PPP or Cisco HDLC", CISCO_HDLC: "Cisco HDLC", IEEE80211: "IEEE 802.11",
              FRAME_RELAY: "Frame Relay", RADIOTAP: "radiotap", PPP_OVER_ETHERNET: "PPP over Ethernet", PFLOG: "PFLOG",
              PRISM: "Prism", AVS: "AVS", PPI: "PPI", IPNET: "Solaris ipnet", NFLOG: "NFLOG",
              INFINIBAND: "IP over InfiniBand", PKTAP: "PKTAP", OTHER_LINK: "another link type"}

# Protocols over IP, and protocols by their ether type, by the names that a line has of them.
NUMBERS = {"UDP": 17, "TCP": 6, "ICMPv4": 1, "ICMPv6": 58, "IGMP": 2, "IPv4": 4, "DCCP": 33, "IPv6": 41, "RSVP": 46, "GRE": 47, "ESP": 50, "AH": 51,
           "no next header": 59, "EIGRP": 88, "OSPF": 89, "EtherIP": 97, "PIM": 103, "IPComp": 108, "VRRP": 112, "L2TP": 115, "SCTP": 132,
           "UDP-Lite": 136, "MPLS-in-IP": 137}
ETHER_TYPES = {"ARP": 0x0806, "RARP": 0x8035, "IPX": 0x8137, "slow protocol": 0x8809, "MPLS": 0x8847, "PPPoE discovery": 0x8863,
               "PPPoE session": 0x8864, "EAPOL": 0x888E, "LLDP": 0x88CC, "MACsec": 0x88E5, "MVRP": 0x88F5, "PTP": 0x88F7, "CFM": 0x8902,
               "loopback": 0x9000}

# The protocols over IP without those that are read, an authentication header, and no next header.
IP_NAMES = {name: number for name, number in NUMBERS.items() if number not in (1, 6, 17, 51, 58, 59)}

# Protocols in PPP, and after LLC.
PPP_NAMES = {"IPCP": 0x8021, "IPV6CP": 0x8057, "CCP": 0x80FD, "LCP": 0xC021, "PAP": 0xC023, "LQR": 0xC025, "CHAP": 0xC223, "EAP": 0xC227}
NLPIDS = {"CLNP": 0x81, "ES-IS": 0x82, "IS-IS": 0x83}
