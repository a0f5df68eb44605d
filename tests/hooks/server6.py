#!/usr/bin/python3
"""server6.py INTERFACE SECONDS FILE: a DHCPv6 server for one client that sends an option 144 for each line of FILE. ISC dhcpd 4.4.3, Kea 2.2.0 and
dnsmasq 2.90 send one option 144 at most, whatever is configured; a client must be prepared for several (RFC 9463 §4.2)."""
import pathlib
import socket
import struct
import sys
import time

# message types: solicit, request, renew, rebind, release, decline, information request, each with the type that answers it
ANSWERS = {1: 2, 3: 7, 5: 7, 6: 7, 8: 7, 9: 7, 11: 7}
ADDRESS = socket.inet_pton(socket.AF_INET6, "2001:db8:9::77")


def option(code, data):
    return struct.pack(">HH", code, len(data)) + data


def options(message):
    found, at = {}, 4
    while at + 4 <= len(message):
        code, length = struct.unpack_from(">HH", message, at)
        found.setdefault(code, message[at + 4 : at + 4 + length])
        at += 4 + length
    return found


def answer(message, values):
    """The answer to a message: client and server identifier, an address where one is asked for, and the options 144."""
    asked = options(message)
    if message[0] not in ANSWERS or 1 not in asked:
        return None
    octets = bytes([ANSWERS[message[0]]]) + message[1:4] + option(1, asked[1]) + option(2, bytes.fromhex("00030001020000000001"))
    if 3 in asked and message[0] not in (8, 9):
        lease = option(5, ADDRESS + struct.pack(">II", 600, 600))
        octets += option(3, asked[3][:4] + struct.pack(">II", 300, 450) + lease)
    return octets + b"".join(option(144, bytes.fromhex(value)) for value in values)


def main():
    interface, end, file = socket.if_nametoindex(sys.argv[1]), time.monotonic() + float(sys.argv[2]), pathlib.Path(sys.argv[3])
    link = socket.socket(socket.AF_INET6, socket.SOCK_DGRAM)
    link.bind(("::", 547))
    group = socket.inet_pton(socket.AF_INET6, "ff02::1:2") + struct.pack("@I", interface)
    link.setsockopt(socket.IPPROTO_IPV6, socket.IPV6_JOIN_GROUP, group)
    while (left := end - time.monotonic()) > 0:
        link.settimeout(left)
        try:
            message, client = link.recvfrom(2048)
        except TimeoutError:
            return
        octets = answer(message, file.read_text().split())
        if octets is not None:
            link.sendto(octets, client)


main()
