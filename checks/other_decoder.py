"""Decodes the example's three buses: little-endian unsigned signals, value texts, and J1939 messages sent to all."""
import re
from decimal import Decimal


def shortest(value):
    text = format(value.normalize(), "f")
    return "0" if text in ("-0", "") else text


def raw_of(payload, start, size):
    if start + size > 8 * len(payload):
        return None
    return int.from_bytes(payload, "little") >> start & (1 << size) - 1


def dbc(name):
    """By identifier: the name and the signals, each (name, start, size, what a raw value says)."""
    messages, texts = {}, {}
    lines = open(name).read().splitlines()
    for line in lines:
        if found := re.match(r"VAL_ (\d+) (\w+) (.*);", line):
            texts[int(found[1]), found[2]] = {int(n): t for n, t in re.findall(r'(\d+) "([^"]*)"', found[3])}
    for line in lines:
        if found := re.match(r"BO_ (\d+) (\w+): ", line):
            identifier, signals = int(found[1]), []
            messages[identifier] = (found[2], signals)
        elif found := re.match(r' SG_ (\w+) : (\d+)\|(\d+)@1\+ \(([\d.-]+),([\d.-]+)\) \[.*\] "(.*)" ', line):
            labels = texts.get((identifier, found[1]), {})
            factor, offset, unit = Decimal(found[4]), Decimal(found[5]), found[6]

            def says(raw, factor=factor, offset=offset, unit=unit, labels=labels):
                return raw * factor + offset, unit, labels.get(raw)

            signals.append((found[1], int(found[2]), int(found[3]), says))
    return messages


def ldf(name):
    text = re.sub(r"//.*", "", open(name).read())

    def section(word):
        at = text.index(word + " {") + len(word) + 2
        depth, end = 1, at
        while depth:
            depth += {"{": 1, "}": -1}.get(text[end], 0)
            end += 1
        return text[at : end - 1]

    sizes = {n: int(s) for n, s in re.findall(r"(\w+): (\d+),", section("Signals"))}
    codings = dict(re.findall(r"(\w+) \{([^}]*)\}", section("Signal_encoding_types")))
    coding_of = {signal: codings[coding] for coding, signal in re.findall(r"(\w+): (\w+);", section("Signal_representation"))}

    def says(coding):
        def of(raw):
            for entry in coding.split(";"):
                parts = [part.strip().strip('"') for part in entry.split(",")]
                if parts[0] == "logical_value" and int(parts[1]) == raw:
                    return Decimal(raw), "", parts[2]
                if parts[0] == "physical_value" and int(parts[1]) <= raw <= int(parts[2]):
                    return raw * Decimal(parts[3]) + Decimal(parts[4]), parts[5], None
            return Decimal(raw), "", None

        return of

    messages = {}
    for frame, identifier, signals in re.findall(r"(\w+): (\d+), \w+, \d+ \{([^}]*)\}", section("Frames")):
        messages[int(identifier)] = (frame, [(s, int(o), sizes[s], says(coding_of[s])) for s, o in re.findall(r"(\w+), (\d+);", signals)])
    return messages


def group_of(identifier):
    group = identifier >> 8 & 0x3FFFF
    return group if identifier >> 16 & 0xFF >= 240 else group & ~0xFF


def signals_of(message, payload):
    for name, start, size, says in message[1]:
        raw = raw_of(payload, start, size)
        if raw is not None:
            value, unit, label = says(raw)
            print(f's {name} {raw} {shortest(value)} "{unit}"' + (f' "{label}"' if label is not None else ""))


def decode(bus, kind, log, messages):
    number, standing = 0, {}
    print(f"start {bus} 0")
    for line in open(log):
        seconds, micros, identifier, digits = re.match(r"\((\d+)\.(\d{6})\) \S+ (\w+)#(\w*)$", line).groups()
        stamp, extended, payload = int(seconds + micros), len(identifier) == 8, bytes.fromhex(digits)
        key = int(identifier, 16)
        message = messages.get(key + (1 << 31) * extended)
        if message is None and kind == "j1939" and extended:
            fitting = [m for k, m in messages.items() if k >> 31 and group_of(k & 0x1FFFFFFF) == group_of(key)]
            message = fitting[0] if fitting else None
        if message:
            print(f"m {bus} {number} 0 {stamp} {message[0]}")
            signals_of(message, payload)
        else:
            print(f"u {bus} {number} 0 {stamp} {identifier}#{payload.hex().upper()}")
        number += 1
        if kind == "j1939" and group_of(key) == 0xEC00 and payload[0] == 32:
            size, group = payload[1] | payload[2] << 8, payload[5] | payload[6] << 8 | payload[7] << 16
            standing[key & 0xFF] = [group, size, b""]
        if kind == "j1939" and group_of(key) == 0xEB00 and key & 0xFF in standing:
            open_one = standing[key & 0xFF]
            open_one[2] += payload[1:]
            if len(open_one[2]) >= open_one[1]:
                whole = open_one[2][: open_one[1]]
                fitting = [m for k, m in messages.items() if k >> 31 and group_of(k & 0x1FFFFFFF) == open_one[0]]
                name = fitting[0][0] if fitting else "-"
                print(f"t {bus} {number} 0 {stamp} {open_one[0]} {key & 0xFF} {key >> 8 & 0xFF} {whole.hex().upper()} {name}")
                if fitting:
                    signals_of(fitting[0], whole)
                number += 1
                del standing[key & 0xFF]
    print(f"end {bus} {number}")


for line in open("bench.txt"):
    words = line.split()
    if words and words[0] == "bus":
        decode(words[1], words[2], words[3], (ldf if words[2] == "lin" else dbc)(words[4]))
