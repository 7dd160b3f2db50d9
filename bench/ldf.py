#!/usr/bin/env python3
"""A LIN description file of some length from a seed: signals, 64 frames, encodings, representations, schedule tables.

    bench/ldf.py SEED BYTES > FILE
"""
import random
import sys

random.seed(int(sys.argv[1]))
length = int(sys.argv[2])
head = (
    'LIN_description_file;\nLIN_protocol_version = "2.1";\nLIN_language_version = "2.1";\nLIN_speed = 19.2 kbps;\n'
    "Nodes {\n  Master: Master, 5 ms, 0.1 ms;\n  Slaves: Slave1, Slave2;\n}\n"
)
out = [head, "Signals {\n"]
size = len(head) + 10


def put(text):
    global size
    out.append(text)
    size += len(text)


names = []
while size < length * 6 // 10:
    name = f"Signal_{len(names):07}"
    start = "{0, 0}" if len(names) % 50 == 0 else random.choice(("0", "0xFF", "12"))
    put(f"  {name}: {16 if start[0] == '{' else random.randint(1, 16)}, {start}, Slave{len(names) % 2 + 1}, Master;\n")
    names.append(name)
put("}\n// the frames\nFrames {\n")
for frame in range(64):
    put(f"  Frame_{frame:02}: {frame}, Slave1, 8 {{\n")
    for place, name in enumerate(random.sample(names, min(200, len(names)))):
        put(f"    {name}, {place % 64};\n")
    put("  }\n")
put("}\nSignal_encoding_types {\n")
encodings = 200
for number in range(encodings):
    put(f"  Encoding_{number:03} {{\n    logical_value, 255, \"signal invalid\";\n")
    put(f"    physical_value, 0, 254, {random.choice(('0.5', '1', '0.01', '2E-3'))}, {random.choice(('0', '-40'))}, \"degC\";\n  }}\n")
put("}\nSignal_representation {\n")
for name in names:
    if size > length * 9 // 10:
        break
    put(f"  Encoding_{random.randrange(encodings):03}: {name};\n")
put("}\nSchedule_tables {\n  Table {\n")
while size < length - 60:
    put(f"    Frame_{random.randrange(64):02} delay 10 ms; /* slot */\n")
put("  }\n}\n")
put(" " * (length - size))
sys.stdout.write("".join(out))
