#!/usr/bin/env python3
"""The expected output of the program zone_table, from the rules of docs/RULES.md written here a second time.

    python3 tools/zone_table.py > crates/zone_table/stdout
"""

ZONES = {
    1: "I<UTOD231458907<<<<<<<<<<<<<<<" "7408122F1204159UTO<<<<<<<<<<<6" "ERIKSSON<<ANNA<MARIA<<<<<<<<<<",
    2: "I<UTOERIKSSON<<ANNA<MARIA<<<<<<<<<<<" "D231458907UTO7408122F1204159<<<<<<<6",
    3: "P<UTOERIKSSON<<ANNA<MARIA<<<<<<<<<<<<<<<<<<<" "L898902C36UTO7408122F1204159ZE184226B<<<<<10",
}

# positions from 1, both ends included
FIELDS = {
    1: dict(name=(61, 90), number=(6, 14), nationality=(46, 48), sex=38, birth=(31, 36), expiry=(39, 44), optional=None,
            composite=60, covers=[(6, 37), (39, 45), (49, 59)]),
    2: dict(name=(6, 36), number=(37, 45), nationality=(47, 49), sex=57, birth=(50, 55), expiry=(58, 63), optional=None,
            composite=72, covers=[(37, 46), (50, 56), (58, 71)]),
    3: dict(name=(6, 44), number=(45, 53), nationality=(55, 57), sex=65, birth=(58, 63), expiry=(66, 71), optional=(73, 86),
            composite=88, covers=[(45, 54), (58, 64), (66, 87)]),
}

LETTERS = "ABCDEFGHIJKLMNOPQRSTUVWXYZ"
DIGITS = "0123456789"


def digit(text):
    values = {**{d: int(d) for d in DIGITS}, **{c: 10 + i for i, c in enumerate(LETTERS)}, "<": 0}
    return str(sum(values[c] * (7, 3, 1)[i % 3] for i, c in enumerate(text)) % 10)


def state(text):
    letters = text.rstrip("<")
    return 1 <= len(letters) <= 3 and all(c in LETTERS for c in letters)


def name(text):
    if any(c not in LETTERS + "<" for c in text) or text[0] not in LETTERS:
        return False
    inner = text.rstrip("<")
    gaps = [len(g) for g in "".join(c if c == "<" else " " for c in inner).split()]
    return all(g <= 2 for g in gaps) and gaps.count(2) <= 1


def date(text):
    if any(c not in DIGITS for c in text):
        return False
    year, month, day = int(text[0:2]), int(text[2:4]), int(text[4:6])
    if not 1 <= month <= 12:
        return False
    last = {2: 29 if year % 4 == 0 else 28, 4: 30, 6: 30, 9: 30, 11: 30}.get(month, 31)
    return 1 <= day <= last


def failures(kind, zone):
    at = lambda span: zone[span[0] - 1:span[1]]
    f = FIELDS[kind]
    for i, c in enumerate(zone):
        if c not in LETTERS + DIGITS + "<":
            return [(10, i + 5)]
    out = []
    fail = lambda case, position: out.append((case, position + 4))
    first, second = zone[0], zone[1]
    if kind == 3:
        code = first == "P" and second in LETTERS + "<"
    else:
        code = first in "ACI" and second in LETTERS + "<" and second != "V"
    if not code:
        fail(11, 1)
    if not state(at((3, 5))):
        fail(12, 3)
    if not name(at(f["name"])):
        fail(13, f["name"][0])
    if at(f["number"])[0] == "<" or zone[f["number"][1]] != digit(at(f["number"])):
        fail(14, f["number"][0])
    if not state(at(f["nationality"])):
        fail(15, f["nationality"][0])
    for case, field in ((16, "birth"), (18, "expiry")):
        if case == 18 and zone[f["sex"] - 1] not in "MF<":
            fail(17, f["sex"])
        if not date(at(f[field])) or zone[f[field][1]] != digit(at(f[field])):
            fail(case, f[field][0])
    if f["optional"]:
        text, check = at(f["optional"]), zone[f["optional"][1]]
        if check != digit(text) and not (check == "<" and set(text) == {"<"}):
            fail(19, f["optional"][0])
    covered = "".join(at(span) for span in f["covers"])
    if zone[f["composite"] - 1] != digit(covered):
        fail(20, f["composite"])
    return sorted(out)


def show(found):
    return "".join(f" {case} at {place};" for case, place in found)


for kind, zone in ZONES.items():
    print(f"TD{kind} as printed:{show(failures(kind, zone))}")
    for i in range(len(zone)):
        for c in "0159AV<*":
            print(f"TD{kind} {i + 1} {c}:{show(failures(kind, zone[:i] + c + zone[i + 1:]))}")
