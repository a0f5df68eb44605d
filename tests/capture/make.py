#!/usr/bin/env python3
"""Writes the small captures that tools/capture.sh reads, the same octets at every run, and beside each what was put into it.

usage: make.py FOLDER

NAME.pcap is a capture. NAME.facts has one JSON object a line for each message that is in it, in the order of frames: what
dnr-capture --json must say of it, as far as the making of it decides that.
"""
import json
import os
import sys
import time

from wire import *

A6 = resolver6(1, "doh1.example.com", ["2001:db8:122:300::1"], alpn("dot"))
B6 = resolver6(2, "dot.example", ["2001:db8::53", "2001:db8::54"], alpn("h2", "dot") + port(8443))
A4 = instance4(1, "doh1.example.com", ["192.0.2.53"], alpn("dot"))
B4 = instance4(2, "doq.example")
DECOY4 = option4(162, instance4(3, "decoy.example"))
A_RA = resolver_ra(1, 3600, "doh1.example.com", ["2001:db8:122:300::1"], alpn("dot"))
B_RA = resolver_ra(2, 0, "dot.example")

DISCOVER = option4(53, b"\1") + option4(55, bytes([1, 3, 6, 162])) + b"\xff"
IS_ACK = option4(53, b"\5")
ACK = IS_ACK + option4(54, address(SERVER4)) + option4(162, A4 + B4) + b"\xff" + bytes(20)
DUID = option6(1, bytes.fromhex("0003000102000000") + b"\0\2")
SOLICIT = DUID + option6(6, bytes([0, 144])) + option6(8, b"\0\0")
REPLY = DUID + option6(2, bytes.fromhex("00030001020000000001")) + A6 + B6


class Capture:
    """Frames, and what is known of the messages in them."""

    def __init__(self, name):
        self.name, self.frames, self.facts = name, [], []

    def add(self, frame, protocol=None, message=None, source=None, area=None, **more):
        """A frame; with a protocol, a message that is to be seen in it."""
        self.frames.append(frame)
        if protocol:
            k = len(self.frames)
            stamp = time.strftime("%Y-%m-%dT%H:%M:%S", time.gmtime(START + k)) + f".{k * 1000:06}Z"
            fact = {"frame": k, "time": stamp, "source": source, "protocol": protocol, "message": message}
            if area is not None:
                fact["area"] = area.hex()
            self.facts.append({**fact, **more})

    def ack(self, options, wrap=ether, area=None, **fields):
        """A DHCPv4 Ack from the server to the client; area is given where it is not the options as they are."""
        frame = wrap(udp4(SERVER4, CLIENT4, 67, 68, dhcp4(2, options, **fields)))
        self.add(frame, "dhcp4", "Ack", SERVER4, options if area is None else area)

    def reply(self, options, wrap=ether):
        """A DHCPv6 Reply from the server to the client."""
        self.add(wrap(udp6(SERVER6, CLIENT6, 547, 546, dhcp6(7, options))), "dhcp6", "Reply", SERVER6, options)

    def router(self, options, wrap=ether):
        """A router advertisement to all nodes."""
        self.add(wrap(icmp6(SERVER6, "ff02::1", advertisement(options))), "ra", "Router Advertisement", SERVER6, options)


def vxlan(packet):
    """RFC 7348 §5, in a packet from somewhere else."""
    return ether(udp4("198.51.100.1", "198.51.100.2", 50000, 4789, bytes([8, 0, 0, 0, 0, 0, 5, 0]) + ether(packet)))


def discover():
    return ether(udp4("0.0.0.0", "255.255.255.255", 68, 67, dhcp4(1, DISCOVER)), "client")


def handshake(name):
    """A Discover first, then an Ack with two resolvers, a Reply with two and an advertisement with two."""
    capture = Capture(name)
    capture.add(discover(), "dhcp4", "Discover", "0.0.0.0", DISCOVER, link="02:00:00:00:00:02", relays=[])
    capture.ack(ACK)
    capture.reply(REPLY)
    capture.router(A_RA + B_RA)
    return capture


def hop(message, hops, link, peer, by):
    return {"message": message, "hops": hops, "link": link, "peer": peer, "address": by}


def relayed():
    """Twice around a Solicit and a Reply, once, eight times, DHCPv4; then around nothing, around what runs past the end, around two."""
    capture = Capture("relayed")
    near, far, server = "2001:db8:1::1", "2001:db8:2::2", "2001:db8:5::1"
    name6, own = option6(18, b"eth0"), [hop("Relay-reply", 0, near, CLIENT6, near)]
    for kind, name, inner, options in ((12, "Relay-forward", (1, "Solicit"), SOLICIT), (13, "Relay-reply", (7, "Reply"), REPLY)):
        wrapped = relay(kind, 1, "::", near, relay(kind, 0, near, CLIENT6, dhcp6(inner[0], options)), before=name6)
        ends = (far, server) if kind == 12 else (server, far)
        path = [hop(name, 1, "::", near, far), hop(name, 0, near, CLIENT6, near)]
        capture.add(ether(udp6(*ends, 547, 547, wrapped)), "dhcp6", inner[1], ends[0], options, relays=path)
    once = relay(13, 0, near, CLIENT6, dhcp6(2, DUID + A6), name6, option6(37, b"remote"))
    capture.add(ether(udp6(server, near, 547, 547, once)), "dhcp6", "Advertise", server, DUID + A6, relays=own)
    deep, path, peer = dhcp6(7, B6), [], CLIENT6
    for hops in range(8):
        by = f"fe80::{hops + 1}:1" if hops < 7 else far
        deep = relay(13, hops, "::", peer, deep)
        path.insert(0, hop("Relay-reply", hops, "::", peer, by))
        peer = by
    capture.add(ether(udp6(server, far, 547, 547, deep)), "dhcp6", "Reply", server, B6, relays=path)
    ack = udp4(SERVER4, RELAY4, 67, 67, dhcp4(2, ACK, giaddr=RELAY4))
    capture.add(ether(ack), "dhcp4", "Ack", SERVER4, ACK, relays=[{"address": RELAY4}])
    empty = bytes([12, 0]) + address(near) + address(CLIENT6) + name6
    path = [hop("Relay-forward", 0, near, CLIENT6, near)]
    capture.add(ether(udp6(near, server, 547, 547, empty)), "dhcp6", "Relay-forward", near, name6, relays=path, remark="no message inside")
    broken = once[:-40]
    capture.add(ether(udp6(server, near, 547, 547, broken)), "dhcp6", "Relay-reply", server, broken[34:], relays=own)
    both = relay(13, 0, near, CLIENT6, dhcp6(7, A6), after=option6(9, dhcp6(7, B6)))
    capture.add(ether(udp6(server, near, 547, 547, both)), "dhcp6", "Reply", server, A6, relays=own, remark="the first of 2 messages inside")
    return capture


def overload():
    """RFC 2131 §4.1 and RFC 3396: what stands after an End is not an option, and each field has its own End."""
    capture = Capture("overload")
    whole, ends = option4(162, A4), b"\xff" + DECOY4
    over = lambda fields: IS_ACK + option4(52, bytes([fields]))
    capture.ack(over(2) + ends, sname=whole + b"\xff", area=over(2) + whole)
    capture.ack(over(1) + b"\xff", file=b"\0\0" + whole + ends, sname=DECOY4, area=over(1) + whole)
    parts = [option4(162, part) for part in ((A4 + B4)[:10], (A4 + B4)[10:30], (A4 + B4)[30:])]
    capture.ack(over(3) + b"\0" + parts[0] + ends, file=parts[1] + b"\0" + ends, sname=parts[2] + ends, area=over(3) + b"".join(parts))
    capture.ack(IS_ACK + b"\xff", file=DECOY4, sname=DECOY4)
    capture.ack(over(1) + b"\xff", file=whole + bytes([162, 200]) + bytes(88), area=over(1) + whole + bytes([162, 200]) + bytes(88))
    capture.ack(over(2), sname=b"\0" * 64, area=over(2))
    capture.ack(option4(52, b"\1") + b"\xff", file=IS_ACK + whole, area=option4(52, b"\1") + IS_ACK + whole)
    return capture


def vlan():
    capture = Capture("vlan")
    capture.router(A_RA, lambda packet: ether(packet, tags=[100]))
    capture.reply(DUID + A6, lambda packet: ether(packet, tags=[10, 20]))
    capture.ack(IS_ACK + option4(162, A4), lambda packet: ether(packet, tags=[100]))
    return capture


def fragments():
    """A Reply in three fragments, the last before the second; an Ack in two; then the first fragment of a Reply without the rest."""
    capture = Capture("fragments")
    options = option6(17, bytes(1300)) + REPLY + option6(17, bytes(900))
    body = summed(SERVER6, CLIENT6, 17, udp(547, 546, dhcp6(7, options)), 6)
    piece = lambda start, end: ether(fragment6(SERVER6, CLIENT6, 17, body[start:end], start, end < len(body)))
    capture.add(piece(0, 1232))
    capture.add(piece(1384, len(body)))
    capture.add(piece(1232, 1384), "dhcp6", "Reply", SERVER6, options)
    options = IS_ACK + option4(43, bytes(250)) + option4(162, A4) + b"\xff"
    body = udp(67, 68, dhcp4(2, options))
    capture.add(ether(ipv4(SERVER4, CLIENT4, 17, body[:512], 0, True)))
    capture.add(ether(ipv4(SERVER4, CLIENT4, 17, body[512:], 512)), "dhcp4", "Ack", SERVER4, options)
    capture.add(ether(fragment6(SERVER6, "fe80::3", 17, udp(547, 546, dhcp6(7, REPLY))[:64], 0, True)))
    return capture


def truncated():
    """Cut in the options, between two options, in and after the UDP header, before the last octet; then only the frame's padding, then nothing."""
    capture = Capture("truncated")
    message = dhcp4(2, ACK)
    frame = ether(udp4(SERVER4, CLIENT4, 67, 68, message))
    capture.add((frame, 300), "dhcp4", "Ack", SERVER4, truncated={"captured": 258, "length": len(message)})
    message = advertisement(A_RA + B_RA)
    frame = ether(icmp6(SERVER6, "ff02::1", message))
    kept = 16 + len(A_RA)
    capture.add((frame, 54 + kept), "ra", "Router Advertisement", SERVER6, truncated={"captured": kept, "length": len(message)})
    message = dhcp6(7, REPLY)
    frame = ether(udp6(SERVER6, CLIENT6, 547, 546, message))
    for kept in (58, 62, 62 + len(message) - 1):
        kind = "Reply" if kept > 62 else None
        length = len(message) if kept >= 62 else None
        capture.add((frame, kept), "dhcp6", kind, SERVER6, truncated={"captured": max(kept - 62, 0), "length": length})
    capture.add((frame + bytes(10), len(frame)), "dhcp6", "Reply", SERVER6, REPLY)
    capture.router(A_RA, lambda packet: ether(packet) + bytes(6))
    capture.ack(ACK)
    return capture


def nothing():
    capture = Capture("nothing")
    capture.add(ether(ipv4(CLIENT4, SERVER4, 1, bytes([8, 0, 0xF7, 0xFF, 0, 0, 0, 0]))))
    capture.add(ether(udp4(CLIENT4, SERVER4, 40000, 53, bytes.fromhex("000101000001000000000000016100000100 01"))))
    capture.add(ether(icmp6(CLIENT6, SERVER6, bytes([135]) + bytes(7) + address(SERVER6))))
    return capture


def quoted():
    """Errors that quote a message: none of them is one."""
    capture = Capture("quoted")
    ack = udp4(SERVER4, CLIENT4, 67, 68, dhcp4(2, ACK))
    error = bytes([3, 3, 0, 0, 0, 0, 0, 0]) + ack
    error = error[:2] + struct.pack("!H", checksum(error)) + error[4:]
    capture.add(ether(ipv4(CLIENT4, SERVER4, 1, error)))
    reply = udp6(SERVER6, CLIENT6, 547, 546, dhcp6(7, REPLY))
    capture.add(ether(icmp6(CLIENT6, SERVER6, bytes([1, 4, 0, 0, 0, 0, 0, 0]) + reply)))
    router = icmp6(SERVER6, CLIENT6, advertisement(A_RA))
    capture.add(ether(icmp6(CLIENT6, SERVER6, bytes([1, 1, 0, 0, 0, 0, 0, 0]) + router)))
    capture.add(vxlan(ipv4(CLIENT4, SERVER4, 1, error)))
    return capture


def malformed():
    """Areas that are refused, and a good one after them."""
    capture = Capture("malformed")
    capture.reply(A6[:-1])
    capture.router(bytes([144, 0]) + bytes(6) + A_RA)
    capture.ack(IS_ACK + option4(162, A4)[:-1])
    capture.reply(b"".join(resolver6(k, f"r{k}.example") for k in range(1, 18)))
    capture.reply(A6)
    return capture


def discarded():
    """Priority 0 beside a resolver, priority 0 alone, a resolver alone, and one with an address that is dropped."""
    capture = Capture("discarded")
    capture.reply(resolver6(0, "alias.example") + A6)
    capture.ack(IS_ACK + option4(162, instance4(0, "alias.example")) + b"\xff")
    capture.router(A_RA)
    capture.reply(DUID + resolver6(1, "doh1.example.com", ["2001:db8:122:300::1", "ff02::fb"], alpn("dot")))
    return capture


def short():
    """Messages that end before their options begin, that have none, types without a name, UDP lengths that are not those of the packet."""
    capture = Capture("short")
    udp_to = lambda payload: ether(udp6(SERVER6, CLIENT6, 547, 546, payload))
    capture.add(udp_to(bytes([7, 1])), "dhcp6", "Reply", SERVER6)
    capture.add(ether(udp4(SERVER4, CLIENT4, 67, 68, dhcp4(2, b"")[:236])), "dhcp4", "BOOTP reply", SERVER4)
    capture.add(ether(udp4(CLIENT4, SERVER4, 68, 67, dhcp4(1, b"")[:236] + bytes(64))), "dhcp4", "BOOTP request", CLIENT4)
    capture.add(udp_to(bytes([13, 0]) + address(SERVER6)), "dhcp6", "Relay-reply", SERVER6)
    capture.add(udp_to(dhcp6(200, A6)), "dhcp6", "message type 200", SERVER6, A6)
    capture.add(ether(icmp6(SERVER6, "ff02::1", advertisement(b"")[:12])), "ra", "Router Advertisement", SERVER6)
    capture.reply(b"")
    capture.ack(option4(53, b"\5"))
    capture.add(ether(udp4(SERVER4, CLIENT4, 67, 68, dhcp4(2, option4(53, b"\x63") + b"\xff"))), "dhcp4", "message type 99", SERVER4)
    whole = udp(547, 546, dhcp6(7, A6))
    for length, name, more in ((54, "Reply", {"area": A6[:-10]}), (114, "Reply", {"truncated": {"captured": 56, "length": 106}}), (5, None, {})):
        said = whole[:4] + struct.pack("!H", length) + whole[6:]
        capture.add(ether(ipv6(SERVER6, CLIENT6, 17, said)), "dhcp6", name, SERVER6, **more)
    inside_nothing = relay(13, 0, "2001:db8:1::1", CLIENT6, b"")
    path = [hop("Relay-reply", 0, "2001:db8:1::1", CLIENT6, "2001:db8:1::1")]
    capture.add(ether(udp6(SERVER6, "2001:db8:1::1", 547, 547, inside_nothing)), "dhcp6", "Relay-reply", SERVER6, relays=path)
    return capture


def tunnel():
    """VXLAN around an Ack, and IPv6 in IPv4 around an advertisement: the inner addresses are those of the message."""
    capture = Capture("tunnel")
    capture.ack(ACK, vxlan)
    capture.router(A_RA, lambda packet: ether(ipv4("198.51.100.1", "198.51.100.2", 41, packet)))
    capture.facts[0]["link"], capture.facts[1]["link"] = "02:00:00:00:00:01", None
    return capture


def other_links():
    """The same messages over another link layer, in another file format and with another clock."""
    plain = lambda packet: packet
    for name, link, wrap in (("raw", 101, plain), ("cooked", 113, cooked)):
        capture = Capture(name)
        capture.ack(ACK, wrap)
        capture.reply(REPLY, wrap)
        capture.router(A_RA, wrap)
        yield capture, "pcap", pcap(capture.frames, link)
    capture = handshake("section")
    yield capture, "pcapng", pcapng(capture.frames)
    capture = handshake("nanoseconds")
    for k, fact in enumerate(capture.facts, 1):
        fact["time"] = fact["time"][:-1] + f"{k:03}Z"
    yield capture, "pcap", pcap(capture.frames, nanoseconds=True)


def captures():
    """Every capture with the ending and the octets of its file."""
    yield from other_links()
    made = [handshake("handshake"), relayed(), overload(), vlan(), fragments(), truncated(), nothing(), quoted(), malformed(), discarded(), short()]
    for capture in made + [tunnel(), Capture("empty")]:
        yield capture, "pcap", pcap(capture.frames)
    capture = handshake("cut")
    del capture.facts[3]
    yield capture, "pcap", pcap(capture.frames)[:-10]


def main():
    if len(sys.argv) != 2:
        sys.exit(__doc__)
    for capture, ending, octets in captures():
        place = os.path.join(sys.argv[1], capture.name)
        with open(f"{place}.{ending}", "wb") as out:
            out.write(octets)
        with open(place + ".facts", "w", encoding="ascii") as out:
            out.writelines(json.dumps(fact) + "\n" for fact in capture.facts)


main()
