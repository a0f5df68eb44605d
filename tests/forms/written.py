#!/usr/bin/env python3
"""Writes the texts that come from no tool at hand: written.py FOLDER adds to FOLDER/text from FOLDER/octets.

by-hand-*: forms of programs that are not run here (Wireshark's window, dhclient's leases, udhcpc's environment, C and shell written by people).
refused-*: texts that are no form at all.
"""
import json
import pathlib
import sys

LISTED = ["sheet", "one", "n17", "all"]


def lines(octets, width, text):
    return "".join(text(octets[k:k + width]) + "\n" for k in range(0, len(octets), width))


def wireshark(octets):
    """What Wireshark's "Copy ... as Hex + ASCII Dump" puts on the clipboard: as tshark -x, with three blanks after the offset."""
    out = ""
    for k in range(0, len(octets), 16):
        row = octets[k:k + 16]
        out += f"{k:04x}   {row.hex(' '):<47}   " + "".join(chr(c) if 32 <= c < 127 else "." for c in row) + "\n"
    return out


def wireshark_hex(octets):
    """Likewise "... as Hex Dump", without the text."""
    return "".join(f"{k:04x}   {octets[k:k + 16].hex(' ')}\n" for k in range(0, len(octets), 16))


FORMS = {
    "digits": lambda o: o.hex(),
    "digits-line": lambda o: o.hex().upper() + "\n",
    "blanks": lambda o: o.hex(" ") + "\n",
    "tabs": lambda o: lines(o, 8, lambda row: "\t" + row.hex(" ").replace(" ", "\t \r")),
    "pairs": lambda o: "".join(f"{c:02x}\n" for c in o),
    "ragged": lambda o: "".join(o[k * (k + 1) // 2:(k + 1) * (k + 2) // 2].hex() + "\n\n" for k in range(23) if k * (k + 1) // 2 < len(o)),
    "dhclient": lambda o: ":".join(f"{c:x}" for c in o) + "\n",
    "colons-lines": lambda o: lines(o, 16, lambda row: row.hex(":")),
    "colons-apart": lambda o: lines(o, 16, lambda row: " " + " : ".join(f"{c:02X}" for c in row) + " :"),
    "commas": lambda o: lines(o, 16, lambda row: row.hex(",") + ","),
    "commas-apart": lambda o: ", ".join(f"{c:02x}" for c in o) + "\n",
    "dashes": lambda o: o.hex("-").upper() + "\n",
    "0x-whole": lambda o: "0x" + o.hex() + "\n",
    "0X": lambda o: lines(o, 8, lambda row: " ".join(f"0X{c:X}" for c in row)),
    "0x-commas": lambda o: ",".join(f"0x{c:x}" for c in o),
    "printf": lambda o: lines(o, 12, lambda row: '"' + "".join(f"\\x{c:02x}" for c in row) + '"'),
    "backslash-apart": lambda o: " ".join(f"\\x{c:02X}" for c in o),
    "c-array": lambda o: "static const uint8_t area[] = { " + ", ".join(f"0x{c:02x}" for c in o) + ", };\n",
    "c-braces": lambda o: "{" + ",".join(f"0x{c:02X}" for c in o) + "}",
    "c-begin": lambda o: "\n\n  {\n" + lines(o, 8, lambda r: "".join(f"0x{c:x}, " for c in r)) + "}\n",
    "c-length": lambda o: "{" + ",".join(f"0x{c:x}" for c in o) + "}\t\n ; size_t\nn[1] =\n" + f"{len(o)}\r\n ;\n\n",
    "c-semicolon": lambda o: "uint8_t a[] = {" + " ".join(f"0x{c:02x}" for c in o) + "};",
    "c-lines": lambda o: "/* an area */\nunsigned char const area[] =\n{\n" + lines(o, 8, lambda r: "\t" + "".join(f"0x{c:02x}, " for c in r)) + "}\n;\n",
}

# Name, text. The line at fault is in table.txt.
REFUSED = {
    "sentence": "The quick brown fox.\n",
    "sentence-second": "\n\nBad dad, a cab faced.\n",
    "words": "bad cafe face\n",
    "words-second": "bad0\ncafe\nface feed\n",
    "words-third": "ba\nad be\ncafe\n",
    "words-pairs": "0090 0030\n00 01\n",
    "html": "<!DOCTYPE html>\n<html><head><title>404 Not Found</title></head>\n<body><h1>Not Found</h1></body></html>\n",
    "html-braces": "<html>\n<style>\nbody {\n  margin: 0;\n}\n</style>\n00 01\n</html>\n",
    "json": '{"carrier": 2, "octets": "0090"}\n',
    "utf8": "größer als 40 960 Oktette\n",
    "utf8-digits": "00 90\n00 3０\n",
    "double-colon": "a2::16\n",
    "address": "2001:db8:122:300::1\n",
    "colon-first": ":00:15\n",
    "colon-three": "00:15:001\n",
    "colon-blank": "00:15 00:01\n",
    "mixed-separators": "00:15:00\n01-12-04\n",
    "mark-second": "00 90\n00:30\n",
    "mark-fourth": "0090\n0030\n\n00,01\n",
    "odd": "00900\n",
    "odd-second": "0090\n003\n0001\n",
    "odd-pair": "00 90 0 30\n",
    "odd-all": "0 1 2 3\n",
    "lengths": "0090 0030 0001 00 12\n",
    "lengths-second": "00 90 00 30\n0001\n",
    "lengths-third": "0090\n00\n00 30\n",
    "comma-one": "00,15,0,1\n",
    "comma-double": "00,15,,00\n",
    "dash-double": "00-15--00\n",
    "0x-wide": "0x0015 0x0001\n",
    "0x-wide-last": "0x00 0x15 0x0001\n",
    "0x-odd": "0x00150\n",
    "0x-none": "0x00 0x 0x15\n",
    "0x-missing": "0x00 15 0x00\n",
    "0x-double": "0x00,,0x15\n",
    "0x-joined": "0x00 0x150x00\n",
    "h-suffix": "00h 15h 00h\n",
    "backslash-one": "\\x00\\x1\\x15\n",
    "backslash-octal": "\\000\\025\n",
    "backslash-missing": "\\x00\n15\n",
    "decimal": "162 22 255\n",
    "decimal-array": "unsigned char area[] = {\n  162, 22, 0, 21,\n  1, 18\n};\n",
    "c-nested": "uint8_t a[2][1] = { { 0x00 }, { 0x01 } };\n",
    "c-wide": "uint16_t a[] = { 0x0015 };\n",
    "c-comment": "char a[] = {\n  0x00, 0x01, /* priority */\n  0x02 };\n",
    "c-function": "void f(void) {0x00}\n",
    "c-struct": "struct s a\n  {0x00, 0x01};\n",
    "c-first-brace": "struct { int a; } x = {0x00};\n",
    "c-equals-before": "x = 1\nuint8_t a[] {0x00};\n",
    "c-after": "char a[] = { 0x00 };\nint main(void) { return 0; }\n",
    "c-octets": "char a[] = { 0x00 } 0x01 };\nint n = 1;\n",
    "c-octets-line": "char a[] = {\n  0x00 }\n  0x01\n};\n",
    "c-octets-semicolon": "char a[] = { 0x00 };\n0x01 };\n",
    "c-second": "char a[] = { 0x00 };\nchar b[] =\n  { 0x01 };\n",
    "c-second-length": "char a[] = { 0x00 };\nchar b[] = { 0x01 };\nint n = 1;\n",
    "c-second-comma": "char a[] = { 0x00 }, b[] = { 0x01 };\n",
    "c-comment-brace": "char a[] = { 0x00 } /* one */;\n",
    "c-comment-end": "char a[] = { 0x00 };\n// one\n",
    "c-comment-length": "char a[] = { 0x00 };\nint n /* one */ = 1;\n",
    "c-brace-brace": "char a[] = { 0x00 }\n}\n",
    "c-no-semicolon": "char a[] = { 0x00 }\nint n = 1;\n",
    "c-semicolons": "char a[] = { 0x00 };\n;\n",
    "c-words": "char a[] = { 0x00 };\nint n\n\n",
    "c-no-words": "char a[] = { 0x00 };\n= 1;\n",
    "c-length-none": "char a[] = { 0x00 };\nint n =\n;\n",
    "c-length-open": "char a[] = { 0x00 };\nint n = 1\n\n",
    "c-length-hex": "char a[] = { 0x00 };\nint n = 0x1;\n",
    "c-length-apart": "char a[] = { 0x00 };\nint n = 1\n 1;\n",
    "c-length-under": "char a[] = { 0x00, 0x01 };\nint n = 1;\n",
    "c-length-long": "char a[] = { 0x00 };\nint n =\n  18446744073709551617;\n",
    "c-after-length": "char a[] = { 0x00 };\nint n = 1;\n\nint m = 1;\n",
    "c-sizeof": "char a[] = { 0x00 };\nint n = sizeof a;\n",
    "c-length-over": "char a[] = { 0x00, 0x01 };\nint n = 3;\n",
    "pem": "-----BEGIN CERTIFICATE-----\nMIIB\n-----END CERTIFICATE-----\n",
    "base64-flagless": "AJAAMAABABIEZG9oMQdleGFtcGxlA2NvbQA=\n",
    "url-base64": "AJA_MA-A\n",
    "base64-long": "QUI=QUI=\n",
    "base64-bits": "QUJ=\n",
    "base64-three": "QUJ\n",
    "base64-one": "QUJDR===\n",
    "base64-pads": "====\n",
    "mac-offset": "0000: 00 90 00 30\n",
    "offset-decimal-point": "0000.0000 00 90\n",
    "two-offsets": "0000  00 90\n0000  00 30\n",
    "offset-alone": "0000  00 90\n0002\n0002  00 30\n",
    "offset-alone-od": "000000 00 90\n000002\n000002 00 30\n",
    "semicolon": "00;90\n",
    "plus": "00 90 +0\n",
    "star": "*\n",
    "star-ended": "000000 00 90\n000002\n*\n000004\n",
    "star-farther": "00000000: 00  .\n*\n\nfffffff0: 01  .\n",
    "quote": "> 0000  00 90\n",
    "digest": "SHA256(area)= 0090\n",
    "windump": "0x0010:  0090 0030\n",
    "tcpdump-half": "\t0x0010:  0090\nhead\n\t0x0000:  0030\n",
    "tcpdump-array": "\t0x0000:  0090 003\nchar a[] = { 0x01 };\n",
    "tcpdump-offset": "head\n\t0x0010:  0090\n",
    "tcpdump-digits": "head\n\n\t0x00:  0090\n",
    "tcpdump-long": "head\n\t0x00000:  0090\n",
}


def main(folder):
    text = folder / "text"
    for name in LISTED:
        octets = (folder / "octets" / (name + ".bin")).read_bytes()
        for form, write in FORMS.items():
            (text / f"by-hand-{form}.{name}.txt").write_bytes(write(octets).encode())
    for name in LISTED + ["n15", "n16", "n32", "text", "pipe", "blank", "blanks", "frame"]:
        octets = (folder / "octets" / (name + ".bin")).read_bytes()
        (text / f"by-hand-wireshark.{name}.txt").write_text(wireshark(octets))
        (text / f"by-hand-wireshark-hex.{name}.txt").write_text(wireshark_hex(octets))
    for name, written in REFUSED.items():
        (text / f"refused-{name}.txt").write_bytes(written.encode())
    whole = (folder / "octets" / "area-dhcp6.bin").read_bytes()
    (text / "refused-python.txt").write_text(repr(whole) + "\n")
    (text / "refused-python-list.txt").write_text(repr(list(whole)) + "\n")
    (text / "refused-python-json.txt").write_text(json.dumps(list(whole)) + "\n")
    (text / "by-hand-nothing.none.txt").write_bytes(b"")
    (text / "by-hand-blank.none.txt").write_bytes(b" \n\t\r\n \n")


if __name__ == "__main__":
    main(pathlib.Path(sys.argv[1]))
