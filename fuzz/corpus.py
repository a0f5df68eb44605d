#!/usr/bin/env python3
"""corpus.py EXAMPLES CORPUS: writes the inputs from which fuzzing starts, in the form that both.c gives (call, room, octets).

They are the pieces of EXAMPLES read, their sheets written, and a few of each with one thing wrong. Earlier files of the kind are removed
first, and the files are the same every time.
"""
import pathlib
import sys

CARRIERS = {"dhcp4": 1, "dhcp6": 2, "ra": 3, "ike4": 4, "ike6": 5}
WRITE = 6
ANY_ROOM = 0xFFFF
NAME = b"\x04doh1\x07example\x03com\0"
BAD_NAME = b"\x04doh1\x07example\x03c_m\0"
LONGEST = b"".join(bytes([n]) + b"a" * n for n in (63, 63, 63, 61)) + b"\0"
ALPN_DOT = b"\0\x01\0\x04\x03dot"
NO_DEFAULT_ALPN = b"\0\x02\0\0"
V4 = bytes([192, 0, 2, 1])
V6 = bytes.fromhex("20010db8012203000000000000000001")
# as many keys as 1,024 octets have room for, in a mandatory list and as parameters without values
KEYS = range(384, 65_281, 384)


def be(number, octets=2):
    return number.to_bytes(octets, "big")


def parameter(key, value):
    return be(key) + be(len(value)) + value


def mandatory(absent=None):
    """A mandatory list of the keys, and the parameters that it names but for one."""
    return parameter(0, b"".join(be(key) for key in KEYS)) + b"".join(parameter(key, b"") for key in KEYS if key != absent)


def record(priority=1, lifetime=0, name=NAME, addresses=None, parameters=b""):
    """A record of a sheet; name only without addresses."""
    head = be(priority) + be(lifetime, 4)
    if addresses is None:
        return head + bytes([0, len(name)]) + name
    return head + bytes([1, len(name)]) + name + bytes([len(addresses)]) + b"".join(addresses) + be(len(parameters)) + parameters


def sheet(carrier, *records, version=1, letters=b"RSV"):
    return letters + be(version) + bytes([carrier, len(records)]) + b"".join(records)


def put(octets, place, new):
    """The octets with `new` over those from `place` on."""
    return octets[:place] + new + octets[place + len(new):]


def dhcp6(body):
    return be(144) + be(len(body)) + body


def full(parameters):
    """An option of DHCPv6 with an address and parameters."""
    return dhcp6(be(1) + be(18) + NAME + be(16) + V6 + parameters)


def option_162(data):
    return bytes([162, len(data)]) + data


def instance(name):
    """An instance of DHCPv4 with a name only."""
    return be(3 + len(name)) + be(1) + bytes([len(name)]) + name


def attribute(text, addresses):
    """An attribute of ENCDNS_IP4 with a name as text."""
    body = be(1) + bytes([len(addresses), len(text)]) + b"".join(addresses) + text + ALPN_DOT
    return be(27) + be(len(body)) + body


def bad_names(pieces):
    """Readings of which the first discarded block has a bad name."""
    k1, k2, k3, k5, k7 = (pieces[name][1] for name in ("k01-dhcp6", "k02-dhcp4", "k03-ra", "k05-ike6", "k07-dhcp6"))
    joined = instance(NAME) * 2 + instance(BAD_NAME) + instance(NAME)
    yield "bad-name-dhcp4", 1, ANY_ROOM, put(k2, 8, b"-")
    yield "bad-name-dhcp4-third-instance", 1, ANY_ROOM, option_162(joined[:52]) + bytes(3) + option_162(joined[52:])
    yield "bad-name-dhcp6", 2, ANY_ROOM, k1 + dhcp6(be(1) + be(len(BAD_NAME)) + BAD_NAME) + k7
    yield "bad-name-dhcp6-256-octets", 2, ANY_ROOM, dhcp6(be(1) + be(256) + LONGEST + b"\0")
    yield "bad-name-ra", 3, ANY_ROOM, put(k3, 11, b"-")
    yield "bad-name-ike4", 4, ANY_ROOM, attribute(b"a-.b", [V4, V4])
    yield "bad-name-ike4-empty", 4, ANY_ROOM, attribute(b"", [V4])
    yield "bad-name-ike4-254-octets", 4, ANY_ROOM, attribute(b".".join([b"a" * 63] * 3 + [b"a" * 62]), [V4])
    yield "bad-name-ike6", 5, ANY_ROOM, put(k5, 28, b"_")
    yield "bad-name-room-6", 5, 6, put(k5, 28, b"_")


def readings(pieces):
    """Name, carrier, room and area of each reading."""
    for name, (carrier, area) in pieces.items():
        yield name, carrier, ANY_ROOM, area
    k1, k2, k3, k5 = (pieces[name][1] for name in ("k01-dhcp6", "k02-dhcp4", "k03-ra", "k05-ike6"))
    yield "k01-room-59", 2, 59, k1
    yield "no-carrier", 8, 60, k1
    yield "name-with-hyphen-last", 2, ANY_ROOM, put(k1, 12, b"-")
    yield "address-length-17", 2, ANY_ROOM, put(k1, 27, b"\x11")
    yield "hint", 2, ANY_ROOM, put(k1, 45, b"\x04")
    yield "multicast", 2, ANY_ROOM, put(k1, 28, b"\xff")
    yield "alpn-runs-over", 2, ANY_ROOM, put(k1, 48, b"\x04")
    yield "one-octet-after-name", 2, ANY_ROOM, dhcp6(be(1) + be(18) + NAME + b"\0")
    yield "absent-mandatory-key", 2, ANY_ROOM, full(parameter(0, be(3)))
    yield "no-default-alpn-alone", 2, ANY_ROOM, full(NO_DEFAULT_ALPN)
    yield "alpn-and-no-default-alpn", 2, ANY_ROOM, full(parameter(0, be(1) + be(2)) + ALPN_DOT + NO_DEFAULT_ALPN)
    yield "170-mandatory-keys", 2, ANY_ROOM, full(mandatory())
    yield "170-mandatory-keys-one-absent", 2, ANY_ROOM, full(mandatory(absent=KEYS[85]))
    yield "64-addresses", 2, ANY_ROOM, dhcp6(be(1) + be(18) + NAME + be(16 * 64) + V6 * 64 + ALPN_DOT)
    yield "17-records", 2, ANY_ROOM, dhcp6(be(9) + be(5) + b"\x03doh\0") * 17
    yield "instance-runs-over", 1, ANY_ROOM, put(k2, 3, b"\x16")
    yield "option-162-empty", 1, ANY_ROOM, bytes([162, 0, 255])
    yield "length-0", 3, ANY_ROOM, k3 + bytes(8)
    yield "8-zeros-after-name", 3, ANY_ROOM, put(k3, 9, b"\x0e\x04doh1\x07example\0" + bytes(8))
    yield "reserved-bit", 5, ANY_ROOM, put(k5, 0, b"\x80")
    yield "attribute-empty", 5, ANY_ROOM, be(28) + be(0)
    yield "40960-octets", 1, 7, bytes(40_960)
    yield "40961-octets", 1, 7, bytes(40_961)
    yield from bad_names(pieces)


def writings():
    """Name, room and sheet of each writing."""
    zeros = [parameter(65_280, bytes(count)) for count in (268, 223)]
    k1 = sheet(2, record(addresses=[V6], parameters=ALPN_DOT))
    yield "k01", ANY_ROOM, k1
    yield "k01-room-51", 51, k1
    yield "k02", ANY_ROOM, sheet(1, record())
    yield "k03", ANY_ROOM, sheet(3, record(lifetime=3_600))
    yield "k04", ANY_ROOM, sheet(3, record(lifetime=3_600, addresses=[V6], parameters=ALPN_DOT))
    yield "k05", ANY_ROOM, sheet(5, record(addresses=[V6], parameters=ALPN_DOT))
    yield "k06", 0, sheet(2)
    yield "k08", ANY_ROOM, sheet(1, record(addresses=[V4], parameters=zeros[0]))
    yield "k09", ANY_ROOM, sheet(1, record(addresses=[V4], parameters=zeros[1]))
    yield "k12", ANY_ROOM, sheet(2, *(record(p, name=b"\x01" + l + b"\x07example\0") for p, l in [(1, b"b"), (5, b"a"), (5, b"c")]))
    yield "three-instances", ANY_ROOM, sheet(1, record(1, name=LONGEST), record(2, addresses=[V4] * 63), record(3))
    yield "longest-name-as-text", ANY_ROOM, sheet(4, record(name=LONGEST, addresses=[V4], parameters=ALPN_DOT))
    yield "six-octets", ANY_ROOM, k1[:6]
    yield "version-2", ANY_ROOM, sheet(2, record(), version=2)
    yield "letters-rsd", ANY_ROOM, sheet(2, letters=b"RSD")
    yield "carrier-6", ANY_ROOM, sheet(6)
    yield "17-records", ANY_ROOM, sheet(2, *[record()] * 17)
    yield "one-octet-more", ANY_ROOM, k1 + b"\0"
    yield "priorities-fall", ANY_ROOM, sheet(2, record(2), record(1))
    yield "lifetime-in-dhcp6", ANY_ROOM, sheet(2, record(lifetime=1))
    yield "name-only-in-ike4", ANY_ROOM, sheet(4, record())
    yield "loopback", ANY_ROOM, sheet(1, record(addresses=[V4, bytes([127, 0, 0, 1])]))
    yield "no-default-alpn-alone", ANY_ROOM, sheet(2, record(addresses=[V6], parameters=NO_DEFAULT_ALPN))
    yield "alpn-and-no-default-alpn", ANY_ROOM, sheet(2, record(addresses=[V6], parameters=ALPN_DOT + NO_DEFAULT_ALPN))
    yield "170-mandatory-keys", ANY_ROOM, sheet(2, record(addresses=[V6], parameters=mandatory()))
    yield "170-mandatory-keys-one-absent", ANY_ROOM, sheet(2, record(addresses=[V6], parameters=mandatory(absent=KEYS[85])))
    yield "bad-name-third-record", ANY_ROOM, sheet(1, record(), record(addresses=[V4, V4], parameters=ALPN_DOT), record(name=BAD_NAME))
    yield "bad-name-third-record-ike6", 0, sheet(5, *(record(name=name, addresses=[V6]) for name in (NAME, NAME, b"\x02a-\0")))
    yield "bad-name-without-root", ANY_ROOM, sheet(2, record(name=LONGEST[:-1]))
    yield "bad-name-after-no-address", ANY_ROOM, sheet(2, record(addresses=[]), record(name=BAD_NAME))
    yield "router-over-2040", ANY_ROOM, sheet(3, record(addresses=[V6] * 63, parameters=parameter(7, bytes(999))))


def main(examples, corpus):
    pieces = {}
    for path in sorted(pathlib.Path(examples).glob("*.hex")):
        pieces[path.stem] = CARRIERS[path.stem.rsplit("-", 1)[1]], bytes.fromhex(path.read_text())
    folder = pathlib.Path(corpus)
    folder.mkdir(exist_ok=True)
    for old in [*folder.glob("read-*"), *folder.glob("write-*")]:
        old.unlink()
    for name, carrier, room, area in readings(pieces):
        (folder / f"read-{name}").write_bytes(bytes([carrier]) + be(room) + area)
    for name, room, octets in writings():
        (folder / f"write-{name}").write_bytes(bytes([WRITE]) + be(room) + octets)


main(*sys.argv[1:])
