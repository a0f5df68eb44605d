#!/usr/bin/env python3
"""Wraps the options of a hex file in the smallest message that carries them, as a capture file for tshark or Wireshark.

usage: capture.py CARRIER FILE.hex OUT.pcap     CARRIER: dhcp4, dhcp6 or ra

IKEv2 attributes travel encrypted; there is no such message to look at without keys.
"""
import struct
import sys

MAC = bytes(6)


def checksum(octets):
    if len(octets) % 2:
        octets += b"\0"
    total = sum(struct.unpack(f"!{len(octets) // 2}H", octets))
    while total >> 16:
        total = (total & 0xFFFF) + (total >> 16)
    return ~total & 0xFFFF


def ipv4_udp(source, target, payload):
    udp = struct.pack("!4H", source, target, 8 + len(payload), 0) + payload
    head = struct.pack("!BBHHHBBH4s4s", 0x45, 0, 20 + len(udp), 0, 0, 64, 17, 0, bytes([192, 0, 2, 1]), bytes([192, 0, 2, 9]))
    return MAC + MAC + b"\x08\x00" + head[:10] + struct.pack("!H", checksum(head)) + head[12:] + udp


def ipv6(next_header, body, place):
    source = bytes.fromhex("fe80" + "00" * 13 + "01")
    target = bytes.fromhex("fe80" + "00" * 13 + "02")
    pseudo = source + target + struct.pack("!II", len(body), next_header)
    body = body[:place] + struct.pack("!H", checksum(pseudo + body)) + body[place + 2 :]
    return MAC + MAC + b"\x86\xdd" + struct.pack("!IHBB", 6 << 28, len(body), next_header, 255) + source + target + body


def dhcp4(options):
    """A DHCPACK (RFC 2131) with the options after the message type."""
    head = bytes([2, 1, 6, 0]) + bytes(4 + 4) + bytes(16) + bytes(16 + 64 + 128)
    return ipv4_udp(67, 68, head + bytes([99, 130, 83, 99, 53, 1, 5]) + options + b"\xff")


def dhcp6(options):
    """A Reply (RFC 8415)."""
    message = bytes([7, 1, 2, 3]) + options
    return ipv6(17, struct.pack("!4H", 547, 546, 8 + len(message), 0) + message, 6)


def router(options):
    """A router advertisement (RFC 4861)."""
    return ipv6(58, bytes([134, 0, 0, 0, 64, 0, 7, 8]) + bytes(8) + options, 2)


def main():
    if len(sys.argv) != 4 or sys.argv[1] not in ("dhcp4", "dhcp6", "ra"):
        sys.exit(__doc__)
    options = bytes.fromhex(open(sys.argv[2]).read().replace(":", " "))
    frame = {"dhcp4": dhcp4, "dhcp6": dhcp6, "ra": router}[sys.argv[1]](options)
    with open(sys.argv[3], "wb") as out:
        out.write(struct.pack("!IHHiIII", 0xA1B2C3D4, 2, 4, 0, 0, 65535, 1))
        out.write(struct.pack("!IIII", 0, 0, len(frame), len(frame)) + frame)


main()
