"""Random areas for tools/findings.py: good options that are spoilt, among foreign ones. The same seed makes the same area."""
import findings_cases as cases
import findings_reference as reference
import show


class Maker(show.Maker):
    """Makes areas from a seed."""

    def pick(self, *rows):
        return self.random.choice(rows)

    def chance(self, part):
        return self.random.random() < part

    def name(self):
        """A name of the kind that sheets have, mostly short."""
        if self.chance(0.9):
            return ".".join(self.random.choice(["a", "doh1", "dns-1", "example", "com", "x" * 63]) for _ in range(self.random.randint(1, 3)))
        return super().name()

    def spoilt_name(self, octets):
        """One octet of a name changed, left out or put in."""
        at = self.random.randrange(len(octets) + 1)
        other = self.pick(b"", b"_", b"-", b".", b"\0", b"\xc0", b"\x40", b" ", bytes([self.random.randrange(256)]), b"\1a", b"a" * 70, b"\1a" * 120)
        return octets[:at] + other + octets[at + self.random.randrange(2):]

    def hosts(self, carrier):
        width = reference.WIDTHS[carrier]
        shut = self.pick(0, 0, 0.2, 0.5, 1)
        count = self.pick(1, 1, 2, 3, 5, 8) if self.chance(0.95) else self.pick(62, 63)
        return b"".join(self.random.choice(cases.SHUT[width]) if self.chance(shut) else self.host(width) for _ in range(count))

    def spoilt_field(self, octets):
        """Parameters in another order, twice, with a key or a value that is not allowed, or cut."""
        made = list(show.parameters(octets))
        for _ in range(self.random.randint(1, 2)):
            at, key = self.random.randint(0, len(made)), self.pick(0, 1, 2, 3, 4, 6, 7, 65535, 65534, self.random.randrange(65536))
            made.insert(at, (key, self.random.randbytes(self.pick(0, 1, 2, 3, 4))))
        if self.chance(0.5):
            made.sort(key=lambda pair: pair[0])
        whole = b"".join(show.parameter(key, value) for key, value in made)
        return whole[:self.random.randint(0, len(whole))] if self.chance(0.2) else whole

    def fields(self, carrier):
        """Fields of a body, one in two of them spoilt in one place."""
        wire = show.wire_of(self.name())
        made = {"priority": self.pick(1, 2, 3, 65535), "lifetime": self.pick(0, 3600), "hosts": self.hosts(carrier), "parameters": self.field(400),
                "name": b".".join(reference.labels(wire)) if carrier > 3 else wire}
        if carrier < 4 and self.chance(0.2):
            made["hosts"] = False
        kind = self.pick("", "", "", "priority", "name", "name", "field", "field", "hosts", "adn", "length", "held", "padding")
        if kind == "priority":
            made["priority"] = 0
        elif kind == "name":
            made["name"] = self.spoilt_name(made["name"])
        elif kind == "field":
            made["parameters"] = self.spoilt_field(made["parameters"])
        elif kind == "hosts" and made["hosts"] and carrier < 4:
            made["hosts"] = made["hosts"][self.pick(1, 2, len(made["hosts"])):]
        elif kind in ("adn", "length", "held"):
            made[kind] = self.pick(0, 1, 16, 32, 64, 255, len(made["name"]) + self.pick(-1, 1)) % 256
        elif kind == "padding" and carrier == 3:
            made["padding"] = bytes(self.random.choice([0, 0, 0, 1]) for _ in range(self.random.randint(0, 12)))
        return made

    def body(self, carrier):
        """A body that its lengths can tell."""
        while True:
            fields = self.fields(carrier)
            most = 255 if carrier in (1, 4, 5) else 65535
            if len(fields["name"]) <= most and not (carrier == 1 and fields["hosts"] and len(fields["hosts"]) > 252):
                octets = cases.body(carrier, **fields)[0]
                break
        if self.chance(0.1):
            octets = octets[:self.random.randint(0, len(octets))]
        if octets and self.chance(0.1):
            at = self.random.randrange(len(octets))
            octets = octets[:at] + bytes([self.random.randrange(256)]) + octets[at + 1:]
        return octets[:2030] if carrier == 3 else octets

    def joined(self):
        """Instances in options 162 of any size, among others."""
        data = b"".join(cases.two(len(octets)) + octets for octets in (self.body(1) for _ in range(self.random.randint(0, 4))))
        if self.chance(0.1):
            data = data[:-1] if self.chance(0.5) else data + b"\0"
        made, size = [], self.pick(255, 255, 100, 20, 3)
        while data or (self.chance(0.1) and len(made) < 5):
            n = self.random.randint(0, size)
            made.append(cases.option(1, data[:n]))
            data = data[n:]
            if self.chance(0.3):
                made.append(cases.foreign(1, self.random.randrange(4)))
        return b"".join(made) + self.pick(b"", b"", b"\xff", b"\xff\xa2\x09", b"\0\0\0")

    def area(self, carrier):
        if carrier == 1:
            return self.joined()
        made = []
        for _ in range(self.random.choice([0, 1, 1, 2, 2, 3, 4, 6])):
            other = self.pick(carrier, carrier, carrier, carrier, *((2, 4, 5) if carrier != 3 else (3,)))
            made.append(cases.option(other, self.body(other)))
            if self.chance(0.3):
                made.append(cases.foreign(carrier, self.random.randrange(3)))
        return b"".join(made)


def case(seed):
    """A carrier, and an area that is mostly of it."""
    maker = Maker(seed)
    carrier = maker.random.randint(1, 5)
    area = maker.area(carrier)
    if maker.chance(0.06):
        area = area[:maker.random.randint(0, len(area))]
    if maker.chance(0.03):
        area += maker.random.randbytes(maker.random.randint(1, 6))
    if maker.chance(0.06):
        carrier = maker.random.randint(1, 5)
    return f"random {seed}", carrier, area[:40960], None
