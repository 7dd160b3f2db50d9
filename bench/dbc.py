#!/usr/bin/env python3
"""A DBC file of some length from a seed: messages with signals, multiplexing, value texts, comments and attributes.

    bench/dbc.py SEED BYTES > FILE
"""
import random
import sys

random.seed(int(sys.argv[1]))
length = int(sys.argv[2])
out = []
size = 0


def put(text):
    global size
    out.append(text)
    size += len(text)


put('VERSION ""\nNS_ :\n\tCM_\n\tBA_DEF_\n\tVAL_\nBS_:\nBU_: ECU Tester Gateway\n')
later = []
message = 0
while size + sum(map(len, later[-1:])) < length // 2 and message < 65000:
    identifier = 2147483648 + message
    put(f"BO_ {identifier} Message_{message:06}: 8 ECU\n")
    for place in range(random.randint(4, 24)):
        mark = " M" if place == 0 else f" m{place}" if place % 4 == 0 else ""
        factor = random.choice(("1", "0.25", "0.1", "1E-003", "2.5"))
        offset = random.choice(("0", "-40", "100", "-273.15"))
        put(
            f" SG_ Signal_{message:06}_{place}{mark} : {place % 8 * 8}|8@1{random.choice('+-')} ({factor},{offset})"
            f' [0|255] "{random.choice(("rpm", "km/h", "degC", "", "%"))}" Tester,Gateway\n'
        )
        if random.random() < 0.3:
            texts = " ".join(f'{n} "Text number {n}"' for n in range(random.randint(2, 9)))
            later.append(f"VAL_ {identifier} Signal_{message:06}_{place} {texts} ;\n")
        if mark.startswith(" m") and random.random() < 0.5:
            later.append(f"SG_MUL_VAL_ {identifier} Signal_{message:06}_{place} Signal_{message:06}_0 {place}-{place};\n")
        if random.random() < 0.3:
            later.append(f'CM_ SG_ {identifier} Signal_{message:06}_{place} "What the signal says; in words";\n')
    later.append(f'BA_ "GenMsgCycleTime" BO_ {identifier} {random.randint(10, 1000)};\n')
    message += 1
for text in later:
    if size + len(text) > length:
        break
    put(text)
while size < length:
    put("CM_ \"filler\";\n"[: length - size] if length - size >= 14 else "\n")
sys.stdout.write("".join(out))
