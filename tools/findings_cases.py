"""Areas for tools/findings.py: a fixed list, in which each case says what must be found and where, and random ones from a seed.

A case is (words, carrier, area, wanted): wanted has (block, octet, fault, end of the message) of each discarded block and (block, octet, None,
address) of each dropped address, by the making of the area; it is None where only the reader of tools/findings_reference.py tells.
"""
import itertools

import findings_reference as reference
import show

NAMES = {"wire": show.wire_of("doh1.example.com"), "text": b"doh1.example.com"}
HOSTS = {4: bytes([192, 0, 2, 1]), 16: bytes.fromhex("20010db8012203000000000000000001")}
SHUT = {4: [bytes(quad) for quad in ([127, 0, 0, 1], [127, 255, 255, 255], [224, 0, 0, 0], [239, 255, 255, 255])],
        16: [bytes(15) + b"\1", b"\xff" + bytes(15), b"\xff" * 16, bytes.fromhex("ff0200000000000000000000000000fb")]}
OPEN = {4: [bytes(quad) for quad in ([126, 255, 255, 255], [128, 0, 0, 0], [223, 255, 255, 255], [240, 0, 0, 0], [0, 0, 0, 0])],
        16: [bytes(16), bytes(15) + b"\2", b"\xfe" + b"\xff" * 15, bytes(10) + b"\xff\xff\x7f\0\0\1", b"\1" + bytes(14) + b"\1"]}
ALPN, NO_DEFAULT = show.parameter(1, b"\3dot"), show.parameter(2, b"")
PARAMETERS = ALPN + show.parameter(3, b"\x21\x52") + show.parameter(7, b"/dns-query{?dns}")


def form(carrier):
    return "text" if carrier > 3 else "wire"


def two(number):
    return number.to_bytes(2, "big")


# ---- octets of options (RULES B1, E2, E3)


def body(carrier, priority=1, lifetime=3600, name=None, hosts=None, parameters=PARAMETERS, padding=None, adn=None, length=None, held=None):
    """A body and the place of each field in it, of "length" that of the addresses (their number in carriers 4 and 5). hosts b"" is a full form
    without addresses, False a name only; adn, length and held spoil the length of the name, of the addresses and of the parameters."""
    width = reference.WIDTHS[carrier]
    name = NAMES[form(carrier)] if name is None else name
    hosts = HOSTS[width] if hosts is None else hosts
    small = lambda number, given: (number if given is None else given).to_bytes(1 if carrier in (1, 4, 5) else 2, "big")
    if carrier > 3:
        pieces = [("priority", two(priority)), ("length", small(len(hosts) // width, length)), ("", small(len(name), adn)), ("addresses", hosts),
                  ("name", name), ("parameters", parameters)]
    else:
        pieces = [("priority", two(priority)), ("", (lifetime.to_bytes(4, "big") if carrier == 3 else b"") + small(len(name), adn)), ("name", name)]
        if hosts is not False:
            pieces += [("length", small(len(hosts), length)), ("addresses", hosts)]
            pieces += [("", two(len(parameters) if held is None else held))] if carrier == 3 else []
            pieces += [("parameters", parameters)]
    octets, marks = b"", {}
    for mark, piece in pieces:
        marks[mark] = len(octets)
        octets += piece
    marks["padding"] = len(octets)
    if carrier == 3:
        octets += bytes(-(len(octets) + 2) % 8) if padding is None else padding
    return octets, {**marks, "end": len(octets)}


def option(carrier, octets, code=None):
    """The option with this body; in carrier 3 zeros bring it to a multiple of 8."""
    code = reference.CODES[carrier] if code is None else code
    if carrier == 1:
        return bytes([code, len(octets)]) + octets
    if carrier == 3:
        octets += bytes(-(len(octets) + 2) % 8)
        return bytes([code, (len(octets) + 2) // 8]) + octets
    return two(code) + two(len(octets)) + octets


def foreign(carrier, k=0):
    """Options that are passed over: codes and contents that look like own ones among them."""
    rows = {1: [(6, b"\xc0\0\2\1"), None, (144, b""), (43, b"\xa2\4\0\0")], 2: [(23, bytes(16)), (162, b""), (17, option(2, bytes(5)))],
            3: [(3, bytes(22)), (27, b""), (25, b"\x90\1" + bytes(4))], 4: [(1, b"\xc0\0\2\1"), (144, b""), (28, bytes(9))],
            5: [(2, b"\xc0\0\2\1"), (144, b""), (27, bytes(9))]}[carrier]
    row = rows[k % len(rows)]
    return option(carrier, row[1], row[0]) if row else b"\0"


def placed(carrier, bodies, sizes=(255,), between=b""):
    """An area of these bodies, and for each the place in the area of each of its octets and of its end. In carrier 1 the joined data are cut into
    options of these sizes, the last of them again and again."""
    if carrier != 1:
        area, places = b"", []
        for octets in bodies:
            start = len(area) + (2 if carrier == 3 else 4)
            places.append([start + i for i in range(len(octets) + 1)])
            area += option(carrier, octets) + between
        return area, places
    joined = b"".join(two(len(octets)) + octets for octets in bodies)
    area, spots, sizes = b"", [], list(sizes)
    while not spots or len(spots) < len(joined):
        size = sizes.pop(0) if len(sizes) > 1 else sizes[0]
        part = joined[len(spots):len(spots) + size]
        spots += [len(area) + 2 + i for i in range(len(part))]
        area += option(1, part)
        spots_end = len(area)
        area += between
    spots.append(spots_end)
    starts = [2 + sum(2 + len(before) for before in bodies[:k]) for k in range(len(bodies))]
    return area, [spots[start:start + len(octets) + 1] for start, octets in zip(starts, bodies)]


def spoilt(words, carrier, fault, mark, plus=0, end="", **fields):
    """Cases with one body at fault: alone; between good ones, with foreign options, where in carrier 1 options are cut at and after the octet at
    fault."""
    bad, marks = body(carrier, **fields)
    good = body(carrier)[0]
    area, places = placed(carrier, [bad])
    yield words, carrier, area, [(1, places[0][marks[mark] + plus], fault, end)]
    at = 2 + len(good) + 2 + marks[mark] + plus
    cuts = [(255,)] if carrier != 1 else [(min(at, 255), 255), (min(at + 1, 255), 1)]
    for sizes in cuts:
        area, places = placed(carrier, [good, bad, good], sizes, foreign(carrier, len(bad)))
        block = 1 if carrier == 1 else 2
        yield f"{words}, between good ones {sizes}", carrier, area, [(block, places[1][marks[mark] + plus], fault, end)]


# ---- faults


def too_short(carrier):
    """Fault 20 in each field."""
    octets, marks = body(carrier)
    room = {1: 255, 4: 255, 5: 255}.get(carrier, 60000)
    for words, fields in (("name", {"adn": room}), ("addresses", {"length": room}), ("parameters", {"held": 60000})):
        if words != "parameters" or carrier == 3:
            yield from spoilt(f"{words} past the end", carrier, 20, "end", **fields)
    for n in range(len(octets)):
        if carrier == 3 and (n + 2) % 8:
            continue
        yield f"the first {n} octets", carrier, placed(carrier, [octets[:n]])[0], None
    if carrier != 1:
        area = foreign(carrier) + option(carrier, b"" if carrier != 3 else bytes(6))
        yield "too little for a name", carrier, area, [(1, len(area), 20, "")]
        return
    good = two(len(octets)) + octets
    for words, area in (
        ("no instance", option(1, b"")), ("half a length", option(1, b"\0")), ("an octet left", option(1, good + b"\0")),
        ("a length of 0", option(1, b"\0\0")), ("an instance past the end", option(1, good[:-1])),
        ("an octet left, in an option of its own", option(1, good) + foreign(1) + option(1, b"\0")),
        ("two empty options", option(1, b"") + b"\0" + option(1, b"")),
        ("an empty option after half a length", option(1, b"\0") + b"\0\0" + option(1, b"")),
    ):
        yield words, 1, area, [(1, len(area), 20, "")]
        yield words + ", and more", 1, area + b"\xff\xa2\1", [(1, len(area), 20, "")]


def of_padding():
    """Fault 29."""
    for words, fields in (("name only", {"hosts": False}), ("full", {})):
        room = len(body(3, **fields)[0]) - body(3, **fields)[1]["padding"]
        for n in range(room):
            yield from spoilt(f"{words}, octet {n} of {room}", 3, 29, "padding", n, padding=bytes(n) + b"\1" + bytes(room - n - 1), **fields)
    for n in (4, 5, 6, 7):
        # name of n + 13 octets, so that 0 to 7 zeros are right and 8 more of them are not
        name = show.wire_of(n * "a" + ".example")
        right = -(len(body(3, name=name, padding=b"")[0]) + 2) % 8
        for more in (b"", bytes(8), b"\1" + bytes(7), bytes(7) + b"\1", bytes(16)):
            padding = bytes(right) + more
            wrong = next((i for i, octet in enumerate(padding) if octet or i == 7), None)
            if wrong is not None:
                yield from spoilt(f"{len(padding)} octets of padding", 3, 29, "padding", wrong, name=name, padding=padding)
            else:
                yield "padding that is right", 3, placed(3, [body(3, name=name, padding=padding)[0]])[0], []
    yield "8 zeros after the name", 3, placed(3, [body(3, name=show.wire_of("a234"), hosts=False, padding=bytes(8))[0]])[0], [(1, 16, 23, "")]


def wire_names():
    """Names at fault in wire form, the place of the first bad octet and the reason."""
    wire, pair = NAMES["wire"], b"\1a"
    n = len(wire)
    yield from ((b"", 0, reference.EMPTY), (b"\0", 0, reference.EMPTY), (b"\0\1a\0", 0, reference.EMPTY))
    yield from ((wire[:-1], n - 1, reference.NO_END), (wire[:8], 8, reference.NO_END), (b"\1", 1, reference.NO_END))
    yield from ((b"\xc0\x0c", 0, reference.POINTER), (b"\1a\xff\0", 2, reference.POINTER), (127 * pair + b"\xc0", 254, reference.POINTER))
    yield from ((b"\x40" + 64 * b"a" + b"\0", 0, reference.LABEL), (b"\1a\xbf\0", 2, reference.LABEL))
    yield from ((128 * pair, 254, reference.LONGER), (126 * pair + b"\2ab\0", 252, reference.LONGER))
    yield 3 * (b"\x3f" + 63 * b"a") + b"\x3e" + 62 * b"a", 192, reference.LONGER
    yield from ((wire + b"\0", n, reference.FOLLOW), (wire + wire, n, reference.FOLLOW), (wire + bytes(300), n, reference.FOLLOW))
    yield from ((b"\4_dns\0", 1, reference.UNDERSCORE), (b"\1a\4dns_\0", 6, reference.UNDERSCORE))
    for name, place in ((b"\1-\0", 1), (b"\2-a\0", 1), (b"\2a-\0", 2), (b"\3a-b\1-\0", 5)):
        yield name, place, reference.HYPHEN
    for octet in b"\0 ./:@[`{\x7f\x80\xc3\xff":
        yield b"\3a" + bytes([octet]) + b"b\0", 2, reference.OTHER


def text_names():
    """The same of names as text; the longest has 253 octets. Where several reasons hold, the first in the order of docs/COMMAND.md is told."""
    nearly, full = 125 * b"a." + b"aa", 95 * b"a." + 63 * b"a"
    yield b"", 0, reference.EMPTY
    for name, place in ((64 * b"a", 63), (b"a." + 64 * b"a" + b".b", 65), (63 * b"a" + b"-a", 63), (62 * b"a" + b"-a", 62), (62 * b"a" + b"--", 62),
                        (62 * b"a" + b"-_", 62), (64 * b"a" + b"_", 63), (255 * b"a", 63)):
        yield name, place, reference.LABEL
    for name, place in ((nearly + b"ab", 253), (nearly + b"a.b", 253), (nearly + b"a-b", 253), (nearly + b"-a", 252), (nearly + b".a", 252),
                        (full + b"a", 253), (full + b"-a", 253), (full + b".a", 253), (full[:-1] + b"-a", 252), (full[:-1] + b"-_", 252)):
        yield name, place, reference.LONGER
    for name, place in ((b"_dns.example", 0), (b"a_", 1), (b"a." + 63 * b"a" + b"_", 65), (nearly + b"a_", 253), (nearly + b"_", 252), (full + b"_", 253),
                        (b"a._", 2), (b"a-_.b", 2)):
        yield name, place, reference.UNDERSCORE
    for name, place in ((b"-a", 0), (b"a-", 2), (b"a-.b", 2), (b"a.-b", 2), (b"a-.", 2), (b"a-..b", 2), (b"-", 0), (b"-.", 0), (62 * b"a" + b"-", 62),
                        (62 * b"a" + b"-.a", 62), (63 * b"a" + b"-", 63), (nearly + b"-", 252), (nearly + b"a-", 253),
                        (full + b"-", 253), (full + b"-.", 253), (full[:-1] + b"-", 252), (full[:-1] + b"-.a", 252)):
        yield name, place, reference.HYPHEN
    for name, place in ((b".", 0), (b".a", 0), (b"a..b", 2), (b"a.b.", 4), (b".-", 0), (nearly + b".", 252), (nearly + b"..", 252), (nearly + b"a.", 253),
                        (full + b".", 253)):
        yield name, place, reference.DOT
    yield NAMES["wire"], 0, reference.OTHER
    yield from ((name, len(name) - 1, reference.OTHER) for name in (63 * b"a" + b" ", full + b"\0", b"a-\0", b"a.\0"))
    for octet in b"\0 /:@[`{\x7f\x80\xc3\xff":
        yield b"a" + bytes([octet]) + b"b", 1, reference.OTHER


GOOD_NAMES = {"wire": [127 * b"\1a" + b"\0", b"\1a\0", b"\3a-b\0", b"\x3f" + 63 * b"a" + b"\0"], "text": [126 * b"a." + b"a", b"a", b"a--b", 63 * b"a"]}


def ends(carrier):
    """Names that differ in their last octets, short ones and such as end at the limits of label and name, many in an area."""
    if carrier > 3:
        most, octets, firsts = 3, b"a-._ ", [b"", *(125 * b"a." + few for few in (b"", b"a", b"aa")), *(n * b"a" for n in (61, 62, 63)),
                                             *(95 * b"a." + n * b"a" for n in (61, 62, 63))]
    else:
        most, octets, firsts = 2, b"\0\1\2a-_\x3f\x40\xbf\xc0", [b"", b"\1a", *(n * b"\1a" for n in (125, 126, 127)), 3 * (b"\x3f" + 63 * b"a")]
    names = [first + bytes(few) for first in firsts for n in range(most + 1) for few in itertools.product(octets, repeat=n)]
    names = [name for name in names if len(name) < 256 and not reference.acceptable(form(carrier), name)]
    for k in range(0, len(names), 120):
        yield f"ends of names {k}", carrier, placed(carrier, [body(carrier, name=name, parameters=b"")[0] for name in names[k:k + 120]])[0], None


def of_names(carrier):
    """Fault 22 for each reason, in the full form and where only a name stands."""
    for name, place, reason in text_names() if carrier > 3 else wire_names():
        if len(name) > 255 and carrier not in (2, 3):
            continue
        made = spoilt(f"name {name[:40]}", carrier, 22, "name", place, "; " + reason, name=name)
        yield from made if reason != reference.OTHER else [next(made)]
        if carrier < 4:
            yield next(spoilt(f"name only {name[:40]}", carrier, 22, "name", place, "; " + reason, name=name, hosts=False))
    if carrier in (2, 4):
        yield from ends(carrier)
    for name in GOOD_NAMES[form(carrier)]:
        yield f"good name {name[:40]}", carrier, placed(carrier, [body(carrier, name=name)[0]])[0], []


def of_addresses(carrier):
    """Faults 23, 24 and 25, and dropped addresses between others."""
    width = reference.WIDTHS[carrier]
    host, shut = HOSTS[width], SHUT[width]
    if carrier != 3:  # there the zeros of both lengths would be padding after a name only (RULES B5)
        yield from spoilt("no addresses", carrier, 23, "length", hosts=b"", parameters=b"")
    yield from spoilt("no addresses, but parameters", carrier, 23, "length", hosts=b"")
    if carrier < 4:
        for wrong in (host[1:], host + b"\0"):
            yield from spoilt("addresses of no multiple", carrier, 23, "length", hosts=wrong)
    if carrier != 1:
        for n in (64, 65):
            yield from spoilt(f"{n} addresses", carrier, 24, "addresses", 63 * width, hosts=n * host)
        yield from spoilt("64 addresses, all dropped", carrier, 24, "addresses", 63 * width, hosts=64 * shut[0])
    yield "63 addresses", carrier, placed(carrier, [body(carrier, hosts=63 * host)[0]])[0], []
    long = show.parameter(65280, bytes(1021))
    yield from spoilt("1,025 octets of parameters", carrier, 24, "parameters", 1024, parameters=long)
    yield from spoilt("1,025 octets of parameters that do not tile", carrier, 24, "parameters", 1024, parameters=b"\xff" * 1025)
    yield "1,024 octets of parameters", carrier, placed(carrier, [body(carrier, parameters=long[:2] + b"\3\xfc" + bytes(1020))[0]])[0], []
    for wrong in [*shut, b"".join(shut)]:
        yield from spoilt("no address left", carrier, 25, "addresses", hosts=wrong)
    # dropped ones first, last and between
    for some in ([shut[0], host], [host, shut[1]], [host, shut[2], host, shut[3], shut[0], host], OPEN[width], OPEN[width] + shut):
        for n in (1, 3):
            octets, marks = body(carrier, hosts=b"".join(some))
            for sizes in ((255,), (20, 1), (7, 9)) if carrier == 1 else ((255,),):
                area, places = placed(carrier, n * [octets], sizes, foreign(carrier, n))
                wanted = [(1 if carrier == 1 else k + 1, places[k][marks["addresses"] + i * width], None, show.address(address))
                          for k in range(n) for i, address in enumerate(some) if address in shut]
                yield f"{len(wanted)} dropped addresses", carrier, area, wanted


def parameter_cases():
    """Octets, where the parameter at fault begins, fault, and its key where it is told."""
    one, make, bare = ALPN, show.parameter, NO_DEFAULT
    for n in (1, 2, 3):
        yield b"\0\1\0\0"[:n], 0, 26, None
        yield one + b"\0\7\0\0"[:n], len(one), 26, None
    yield one + b"\0\7\0\3ab", len(one), 26, None
    yield one + b"\xff\xff\0\1", len(one), 26, None
    yield one + b"\0\1\0\1", len(one), 26, None
    for key, octets in ((1, b"\2h2"), (0, b"\0\1")):
        yield one + make(key, octets), len(one), 26, key
    yield make(7, b"") + make(4, b""), 4, 26, 4
    yield make(4, b"") + make(65535, b"") + make(65535, b""), 4, 26, 65535
    yield make(65535, b""), 0, 26, 65535
    yield make(1, b"") + make(300, b"") + make(300, b"") + make(299, b""), 8, 26, 300
    for key in (4, 6):
        yield make(key, b"\xc0\0\2\1"), 0, 27, key
        yield make(0, b"") + make(1, b"") + make(key, b"") + make(7, b""), 8, 27, key
    yield make(4, b"") + make(6, b""), 0, 27, 4
    for octets in (b"", b"\0", b"\0\1\0", b"\0\3\0\1", b"\0\1\0\1", b"\0\0", b"\0\0\0\1", b"\0\2", b"\0\1\0\7", b"\0\4", b"\xff\xff"):
        yield make(0, octets) + one + make(3, b"\0\1"), 0, 28, 0
    for octets in (b"", b"\0", b"\3do", b"\3dot\0", b"\3dot\1", b"\xff"):
        yield make(1, octets), 0, 28, 1
        yield make(0, b"\0\1") + make(1, octets) + make(3, b""), 6, 28, 1
    yield one + make(2, b"\0"), len(one), 28, 2
    for octets in (b"", b"\0", b"\0\1\2"):
        yield one + bare + make(3, octets), len(one) + 4, 28, 3
    # key 2 without key 1 is at fault itself (RULES P6), where nothing before it is; 26 and 27 of what follows it go first (RULES T3)
    yield from ((octets, 0, 28, 2) for octets in (bare, make(2, b"\0"), bare + make(3, b""), bare + make(3, b"\0\1") + make(5, b"") + make(7, b"")))
    yield from ((make(0, b"\0\2") + bare, 6, 28, 2), (make(0, b"\0\1\0\2") + bare, 0, 28, 0), (make(1, b"") + bare, 0, 28, 1))
    yield from ((bare + make(4, b""), 4, 27, 4), (bare + make(65535, b""), 4, 26, 65535), (bare + b"\0", 4, 26, None), (bare + one, 4, 26, 1))


def of_parameters(carrier):
    for octets in (ALPN + NO_DEFAULT, show.parameter(0, b"\0\1\0\2") + ALPN + NO_DEFAULT):
        yield "no-default-alpn beside alpn", carrier, placed(carrier, [body(carrier, parameters=octets)[0]])[0], []
    for octets, at, fault, key in parameter_cases():
        end = "" if key is None else f"; parameter {show.key_name(key)}"
        yield from spoilt(f"parameters {octets[:30].hex()}", carrier, fault, "parameters", at, end, parameters=octets)


# ---- several blocks, refusals, other carriers


def mixed(carrier):
    """Several blocks: of carrier 1 the first fault alone is told, and no dropped address of a block that is discarded."""
    width = reference.WIDTHS[carrier]
    shut = SHUT[width][0]
    wrong = [(body(carrier, priority=0), 21, "priority", ""), (body(carrier, hosts=HOSTS[width] + shut), None, "addresses", show.address(shut)),
             (body(carrier, name=b"\4_dns\0" if carrier < 4 else b"_dns"), 22, "name", "; " + reference.UNDERSCORE),
             (body(carrier, hosts=3 * shut + HOSTS[width]), None, "addresses", show.address(shut)), (body(carrier), None, None, ""),
             (body(carrier, parameters=show.parameter(3, b"")), 28, "parameters", "; parameter port")]
    for order in ([0, 1, 2, 3, 4, 5], [1, 3, 4], [4, 1, 5, 0], [3, 2, 4, 1], [0, 2, 5], [4]):
        area, places = placed(carrier, [wrong[k][0][0] for k in order], (30, 1, 255), foreign(carrier))
        wanted = []
        for block, (k, spots) in enumerate(zip(order, places), 1):
            (_, marks), fault, mark, end = wrong[k]
            if mark:
                shift = {1: width, 2: int(carrier < 4)}.get(k, 0)
                wanted += [(1 if carrier == 1 else block, spots[marks[mark] + shift + n * width], fault, end) for n in range(3 if k == 3 else 1)]
        faults = [found for found in wanted if found[2]]
        before = foreign(carrier, 1)
        told = faults[:1] if carrier == 1 and faults else wanted
        yield f"blocks {order}", carrier, before + area, [(block, octet + len(before), fault, end) for block, octet, fault, end in told]


def counted(carrier):
    """The number of records (RULES L2): bad ones do not count, and of carrier 1 a bad instance discards all (O16)."""
    few, bad = body(carrier, parameters=b"")[0], body(carrier, priority=0)[0]
    for bodies, refused in ((16 * [few], False), (17 * [few], True), (16 * [few] + [bad], False), (17 * [few] + [bad], carrier != 1)):
        area, _ = placed(carrier, bodies)
        yield f"{len(bodies)} blocks" + (", refused" if refused else ""), carrier, area, None
    for octets in (few, bad):
        area = placed(carrier, [octets])[0]
        for cut in (area[:-1], area + area[:1], area + area[:-1]):
            yield "cut", carrier, cut, None
    most = placed(carrier, [few])[0] + (bytes(40960) if carrier == 1 else 5120 * option(carrier, bytes(6), 1))
    yield "40,961 octets", carrier, most[:40961], None


def others():
    """Areas that another carrier reads: nothing found, all discarded, or refused, with and without a hint."""
    good = {carrier: placed(carrier, [body(carrier)[0]])[0] for carrier in reference.CARRIERS}
    bad = {carrier: placed(carrier, [body(carrier, priority=0)[0]])[0] for carrier in reference.CARRIERS}
    for made in good:
        for carrier in reference.CARRIERS:
            for area in (good[made], bad[made], good[made] + good[made][:-1], b"\xff\0\0\0" + good[made], b"\0\0\0\0" + good[made]):
                yield f"an area of {made}", carrier, area, None
    # options 144, attributes 27 and 28 have one framing
    for carrier, other in ((2, 4), (2, 5), (4, 2), (4, 5), (5, 2), (5, 4)):
        yield f"bad, and one of {other}", carrier, bad[carrier] + good[other], None
        yield f"bad, and 17 of {other}", carrier, bad[carrier] + 17 * good[other], None
        yield f"bad, and bad of {other}", carrier, bad[carrier] + bad[other], None
        yield f"bad and good, and one of {other}", carrier, bad[carrier] + good[carrier] + good[other], None
        yield f"bad, one of {other}, and cut", carrier, bad[carrier] + good[other] + b"\0", None
    # to DHCPv6 an option 162 of one instance is a foreign option, since the instance's length stands where its own is; 255 ends the area of DHCPv4
    for other in (2, 4, 5):
        yield "an instance that is bad, and one of another carrier", 1, bad[1] + b"\xff\0\0\0" + good[other], None
    # to DHCPv6 an option of a router advertisement has its priority as a length: here 28, and in the option after it 4
    short = option(3, body(3, priority=28, name=NAMES["wire"][:-1] + b"_", hosts=False)[0])
    for other in (2, 4, 5):
        rest = good[other] + option(other, bytes(-(len(good[other]) + 4) % 8), 1)
        around = bytes([1, 1 + len(rest) // 8, 0, 4]) + bytes(4) + rest
        yield "options of another carrier in a foreign one", 3, around, None
        yield "an option that is bad, and such a foreign one", 3, short + around, None
    few = {1: ("", "ffa2", "a2"), 2: ("", "00"), 3: ("0000", "9000000000000000"), 4: ("801b0000",), 5: ("801c000100",)}
    yield from ((f"area {area}", carrier, bytes.fromhex(area), None) for carrier, areas in few.items() for area in areas)


def fixed():
    for carrier in reference.CARRIERS:
        for cases in (too_short, of_names, of_addresses, of_parameters, mixed, counted):
            yield from cases(carrier)
        yield from spoilt("priority 0", carrier, 21, "priority", priority=0)
    yield from of_padding()
    yield from others()
