#!/usr/bin/python3
"""Writes what the servers of tools/hooks.sh are given, and what must come of it: NAME.hex, the value of each option on a line of its own, and
NAME.json, the sheet as `dnr show --json` prints it. Both come from the table below, neither from dnr. For ra a line is the whole option."""
import ipaddress
import json
import pathlib
import struct

DOT = [("alpn", ["dot"]), ("port", 8853)]
DOH = [("alpn", ["h2", "h3"]), ("dohpath", "/dns-query{?dns}")]
CARRIERS = {"dhcp4": (1, "DHCPv4"), "dhcp6": (2, "DHCPv6"), "ra": (3, "router advertisement")}


def site(number):
    """A resolver with a long name: five of them have 510 octets, two full options 162."""
    name = f"resolver{number}.a-rather-long-name-of-a-site.example.net"
    return (number, 0, name, [f"192.0.2.{50 + number}", f"198.51.100.{50 + number}"], [DOH[0], ("port", 8440 + number), DOH[1]])


# file: records as priority, lifetime, name, addresses, parameters
TABLE = {
    "short-dhcp4": [(1, 0, "dot.example.net", ["192.0.2.53"], DOT), (2, 0, "doh.example.net", ["192.0.2.54", "198.51.100.54"], DOH)],
    "joined-dhcp4": [
        (1, 0, "doh1.example.net", [f"192.0.2.{k}" for k in range(50, 79)], DOH),
        (2, 0, "doh2.example.net", [f"198.51.100.{k}" for k in range(50, 60)], DOH),
    ],
    "long-dhcp4": [site(number) for number in range(1, 6)],
    "one-dhcp6": [(1, 0, "dot.example.net", ["2001:db8::53"], DOT)],
    "two-dhcp6": [(1, 0, "dot.example.net", ["2001:db8::53"], DOT), (2, 0, "doh.example.net", ["2001:db8::54", "2001:db8:1::54"], DOH)],
    "three-ra": [
        (1, 1800, "dot.example.net", ["2001:db8::53"], DOT),
        (2, 600, "doh.example.net", ["2001:db8::54", "2001:db8:1::54"], DOH),
        (3, 600, "only.example.net", [], []),
    ],
    "second-ra": [(4, 900, "second.example.net", ["2001:db8:2::53"], DOT)],
}
TABLE["both-ra"] = TABLE["three-ra"] + TABLE["second-ra"]
KEYS = {"alpn": 1, "port": 3, "dohpath": 7}


def wire(name):
    return b"".join(bytes([len(label)]) + label.encode() for label in name.split(".")) + b"\0"


def parameter(name, value):
    if name == "alpn":
        octets = b"".join(bytes([len(one)]) + one.encode() for one in value)
    else:
        octets = struct.pack(">H", value) if name == "port" else value.encode()
    return struct.pack(">HH", KEYS[name], len(octets)) + octets


def value(carrier, record):
    """The octets of one resolver: an instance of DHCPv4, the data of an option of DHCPv6, a whole option of a router advertisement."""
    priority, lifetime, name, addresses, parameters = record
    packed = b"".join(ipaddress.ip_address(one).packed for one in addresses)
    tail = b"".join(parameter(*one) for one in parameters)
    short = carrier == "dhcp4"
    size = ">B" if short else ">H"
    body = struct.pack(">H", priority) + (struct.pack(">I", lifetime) if carrier == "ra" else b"")
    body += struct.pack(size, len(wire(name))) + wire(name)
    if addresses:
        body += struct.pack(size, len(packed)) + packed + (struct.pack(">H", len(tail)) if carrier == "ra" else b"") + tail
    if carrier == "ra":
        body += bytes(-(len(body) + 2) % 8)
        return bytes([144, (len(body) + 2) // 8]) + body
    return struct.pack(">H", len(body)) + body if short else body


def shown(carrier, record):
    priority, lifetime, name, addresses, parameters = record
    answer = {"name": name, "priority": priority}
    if carrier == "ra":
        answer["lifetime"] = lifetime
    answer["nameOnly"] = not addresses
    if addresses:
        answer["addresses"] = addresses
        answer["parameters"] = [{"key": KEYS[key], "name": key, "value": what} for key, what in parameters]
    return answer


def main():
    here = pathlib.Path(__file__).parent
    for file, records in TABLE.items():
        carrier = file.split("-")[1]
        values = [value(carrier, record).hex() for record in records]
        lines = ["".join(values)] if carrier == "dhcp4" else values
        (here / f"{file}.hex").write_text("".join(line + "\n" for line in lines))
        number, title = CARRIERS[carrier]
        sheet = {"carrier": number, "carrierName": title, "records": [shown(carrier, record) for record in records]}
        (here / f"{file}.json").write_text(json.dumps(sheet, separators=(",", ":")) + "\n")


main()
