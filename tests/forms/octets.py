#!/usr/bin/env python3
"""Makes the octets that the forms show: octets.py FOLDER writes FOLDER/octets/*.bin and, for tcpdump and tshark, FOLDER/captures/*.pcap.

The areas are those of examples/; the sheet is that of K1 as tools/command.sh spells it (RULES K1). The others are chosen for what the dumps do
with them: see OTHERS.
"""
import pathlib
import struct
import sys

EXAMPLES = pathlib.Path(__file__).resolve().parents[2] / "examples"
AREAS = {"dhcp4": "k08-dhcp4", "dhcp6": "k01-dhcp6", "ra": "k03-ra"}
NAME = "04646f6831076578616d706c6503636f6d00"
SHEET = "52535600010201" + "00010000000001" + "12" + NAME + "01" + "20010db8012203000000000000000001" + "0008" + "0001000403646f74"
COUNT = bytes(range(0xA0, 0x100))

OTHERS = {
    "one": b"\xa2",
    "n15": COUNT[:15],
    "n16": COUNT[:16],
    "n17": COUNT[:17],
    "n32": COUNT[:32],
    # hexdump, od and xxd -a write `*` for lines that repeat: in the middle, with a last line of another length, and up to the end.
    "zeros": COUNT[:20] + bytes(256) + COUNT[20:44],
    "zeroend": bytes(80),
    "repeat": b"ab cd ef 01 02 |" * 4 + b"ab",
    # Text columns that look like octets, like an end of the column, or like the blanks before it.
    "text": b"ab cd ef 01 23 4" + b"  00 01  02 03  " + b"|..||  >> <<  ||" + b"00000040: 6162 a" + b"|0x0010:  >|",
    "pipe": b"0123456789abcde|" + b"|23456789abcdef|" + b">bcdefgh|jklmno<" + b"<<<>>>|",
    "blank": b" 1234567890abcd " + b"   abc def ghi  " + b" z ",
    "blanks": b" " * 16 + b"a" + b" " * 15 + b" " * 3,
    # A C array in a text column.
    "brace": b"a[1]={0x41};    " + b"  uint8_t b[1] = " + b"{0x42};",
    "all": bytes(range(256)),
}


def example(name):
    return bytes.fromhex((EXAMPLES / (name + ".hex")).read_text())


def frame(payload):
    """An Ethernet frame with a UDP datagram between the ports of DHCPv4; the checksums are left 0."""
    datagram = struct.pack(">HHHH", 67, 68, 8 + len(payload), 0) + payload
    header = struct.pack(">BBHHHBBH4s4s", 0x45, 0, 20 + len(datagram), 1, 0, 64, 17, 0, bytes([192, 0, 2, 1]), bytes([192, 0, 2, 2]))
    return bytes.fromhex("ffffffffffff0200000000010800") + header + datagram


def capture(frames):
    """A capture file as libpcap writes it, little-endian, Ethernet."""
    out = struct.pack("<IHHiIII", 0xA1B2C3D4, 2, 4, 0, 0, 65535, 1)
    for k, octets in enumerate(frames):
        out += struct.pack("<IIII", 1700000000 + k, 0, len(octets), len(octets)) + octets
    return out


def main(folder):
    octets = {"area-" + carrier: example(name) for carrier, name in AREAS.items()} | {"sheet": bytes.fromhex(SHEET)} | OTHERS
    # The captures of one frame that is any octets; -xx and -XX show all of it.
    captures = {name: [value] for name, value in octets.items()}
    packet = frame(octets["area-dhcp6"] + b" | ab cd ef 01 ")
    octets |= {"none": b"", "frame": packet, "packet": packet[14:]}
    captures |= {"frame": [packet], "two": [packet, frame(b"ab cd")]}
    for name, value in octets.items():
        (folder / "octets" / (name + ".bin")).write_bytes(value)
    for name, value in captures.items():
        (folder / "captures" / (name + ".pcap")).write_bytes(capture(value))


if __name__ == "__main__":
    root = pathlib.Path(sys.argv[1])
    for part in ("octets", "captures"):
        (root / part).mkdir(parents=True, exist_ok=True)
    main(root)
