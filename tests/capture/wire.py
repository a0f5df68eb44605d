"""Octets from the resolver up to the capture file, for make.py. Every layer is built from its document and nothing is read back."""
import socket
import struct

SERVER4, CLIENT4, RELAY4 = "192.0.2.1", "192.0.2.100", "192.0.2.254"
SERVER6, CLIENT6 = "fe80::1", "fe80::2"
MACS = {"server": bytes.fromhex("020000000001"), "client": bytes.fromhex("020000000002")}
START = 1767225600  # 2026-01-01T00:00:00Z


# ---- options (RFC 9463)


def address(text):
    return socket.inet_pton(socket.AF_INET6 if ":" in text else socket.AF_INET, text)


def name(text):
    """RFC 8415 §10: labels and the root, uncompressed."""
    return b"".join(bytes([len(label)]) + label.encode() for label in text.split(".")) + b"\0"


def alpn(*protocols):
    """RFC 9460 §7.1: key 1."""
    value = b"".join(bytes([len(p)]) + p.encode() for p in protocols)
    return struct.pack("!HH", 1, len(value)) + value


def port(number):
    """RFC 9460 §7.2: key 3."""
    return struct.pack("!HHH", 3, 2, number)


def option6(code, value):
    """RFC 8415 §21.1."""
    return struct.pack("!HH", code, len(value)) + value


def option4(code, value):
    """RFC 2132 §2, cut at 255 octets as RFC 3396 §7 has it."""
    cuts = [value[i : i + 255] for i in range(0, len(value), 255)] or [b""]
    return b"".join(bytes([code, len(cut)]) + cut for cut in cuts)


def resolver6(priority, adn, addresses=(), parameters=b""):
    """RFC 9463 §4.1: option 144; without addresses the ADN-only mode."""
    body = struct.pack("!HH", priority, len(name(adn))) + name(adn)
    if addresses:
        body += struct.pack("!H", 16 * len(addresses)) + b"".join(map(address, addresses)) + parameters
    return option6(144, body)


def instance4(priority, adn, addresses=(), parameters=b""):
    """RFC 9463 §5.1: one DNR instance of option 162."""
    body = struct.pack("!HB", priority, len(name(adn))) + name(adn)
    if addresses:
        body += bytes([4 * len(addresses)]) + b"".join(map(address, addresses)) + parameters
    return struct.pack("!H", len(body)) + body


def resolver_ra(priority, lifetime, adn, addresses=(), parameters=b""):
    """RFC 9463 §6.1: option 144 of neighbour discovery, padded to 8 octets."""
    body = struct.pack("!HIH", priority, lifetime, len(name(adn))) + name(adn)
    if addresses:
        body += struct.pack("!H", 16 * len(addresses)) + b"".join(map(address, addresses))
        body += struct.pack("!H", len(parameters)) + parameters
    body += bytes(-(2 + len(body)) % 8)
    return bytes([144, (2 + len(body)) // 8]) + body


# ---- messages


def dhcp4(op, options, giaddr="0.0.0.0", sname=b"", file=b""):
    """RFC 2131 §2 up to the magic cookie, then the options as they are."""
    head = bytes([op, 1, 6, 0]) + bytes.fromhex("01020304") + bytes(16) + address(giaddr)
    return head + MACS["client"].ljust(16, b"\0") + sname.ljust(64, b"\0") + file.ljust(128, b"\0") + bytes([99, 130, 83, 99]) + options


def dhcp6(kind, options):
    """RFC 8415 §8."""
    return bytes([kind, 1, 2, 3]) + options


def relay(kind, hops, link, peer, message, before=b"", after=b""):
    """RFC 8415 §9, the message in option 9 between other options."""
    return bytes([kind, hops]) + address(link) + address(peer) + before + option6(9, message) + after


def advertisement(options):
    """RFC 4861 §4.2; ipv6 fills in the checksum."""
    return bytes([134, 0, 0, 0, 64, 0, 7, 8]) + bytes(8) + options


# ---- packets


def checksum(octets):
    total = sum(struct.unpack(f"!{(len(octets) + 1) // 2}H", octets + bytes(len(octets) % 2)))
    while total >> 16:
        total = (total & 0xFFFF) + (total >> 16)
    return ~total & 0xFFFF


def ipv4(source, target, protocol, body, offset=0, more=False):
    """RFC 791; offset counts octets."""
    head = struct.pack("!BBHHHBBH", 0x45, 0, 20 + len(body), 7, more << 13 | offset // 8, 64, protocol, 0) + address(source) + address(target)
    return head[:10] + struct.pack("!H", checksum(head)) + head[12:] + body


def ipv6(source, target, following, body):
    """RFC 8200 §3."""
    return struct.pack("!IHBB", 6 << 28, len(body), following, 255) + address(source) + address(target) + body


def fragment6(source, target, following, body, offset, more):
    """RFC 8200 §4.5; offset counts octets."""
    return ipv6(source, target, 44, struct.pack("!BBHI", following, 0, offset | more, 99) + body)


def summed(source, target, following, body, place):
    """The body with its checksum over the pseudo-header (RFC 8200 §8.1)."""
    pseudo = address(source) + address(target) + struct.pack("!II", len(body), following)
    return body[:place] + struct.pack("!H", checksum(pseudo + body)) + body[place + 2 :]


def udp(source_port, target_port, payload):
    return struct.pack("!4H", source_port, target_port, 8 + len(payload), 0) + payload


def udp4(source, target, source_port, target_port, payload):
    return ipv4(source, target, 17, udp(source_port, target_port, payload))


def udp6(source, target, source_port, target_port, payload):
    return ipv6(source, target, 17, summed(source, target, 17, udp(source_port, target_port, payload), 6))


def icmp6(source, target, message):
    return ipv6(source, target, 58, summed(source, target, 58, message, 2))


# ---- frames and files


def ether(packet, sender="server", tags=()):
    """Ethernet II; tags are 802.1Q VLAN numbers, the outer first."""
    kinds = {4: 0x0800, 6: 0x86DD}
    head = bytes(6) + MACS[sender]
    for place, vlan in enumerate(tags):
        head += struct.pack("!HH", 0x88A8 if place + 1 < len(tags) else 0x8100, vlan)
    return head + struct.pack("!H", kinds[packet[0] >> 4]) + packet


def cooked(packet, sender="server"):
    """LINKTYPE_LINUX_SLL: what a capture on the interface `any` has."""
    kinds = {4: 0x0800, 6: 0x86DD}
    return struct.pack("!HHH", 0, 1, 6) + MACS[sender] + bytes(2) + struct.pack("!H", kinds[packet[0] >> 4]) + packet


def pcap(frames, link=1, snap=65535, nanoseconds=False):
    """Frame k at k seconds and k thousandths past START; a frame is cut where a pair says how many of its octets were captured."""
    out = struct.pack("<IHHiIII", 0xA1B23C4D if nanoseconds else 0xA1B2C3D4, 2, 4, 0, 0, snap, link)
    for k, frame in enumerate(frames, 1):
        whole, kept = frame if isinstance(frame, tuple) else (frame, len(frame))
        out += struct.pack("<IIII", START + k, k * (1000001 if nanoseconds else 1000), kept, len(whole)) + whole[:kept]
    return out


def pcapng(frames, link=1):
    """A section header, an interface and an enhanced packet block a frame."""

    def block(kind, body):
        body += bytes(-len(body) % 4)
        return struct.pack("<II", kind, 12 + len(body)) + body + struct.pack("<I", 12 + len(body))

    out = block(0x0A0D0D0A, struct.pack("<IHHq", 0x1A2B3C4D, 1, 0, -1)) + block(1, struct.pack("<HHI", link, 0, 65535))
    for k, frame in enumerate(frames, 1):
        time = (START + k) * 1000000 + k * 1000
        out += block(6, struct.pack("<IIIII", 0, time >> 32, time & 0xFFFFFFFF, len(frame), len(frame)) + frame)
    return out
