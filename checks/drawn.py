"""The folders of examples/, and small drawn ones, for checks that compare the program with plain definitions."""

import csv
import json
import os

POLICIES = [("none", None)] + [(kind, ties) for kind in ("flexible", "steps") for ties in ("by-rank", "by-hospital", "listed")]
MOST_CONTRACTS = 12


def folders(room, draw, count):
    """The folders of examples/, as a room sees them, and so many drawn ones of each kind of policy and ties: each with what it is called."""
    for name in sorted(os.listdir(os.path.join(room.at, "examples"))):
        yield "examples/" + name, "example"
    for number, (kind, ties) in enumerate(POLICIES * count):
        folder = "drawn%d" % number
        draw_folder(draw, kind, ties, os.path.join(room.at, folder))
        yield folder, "%s, %s" % (kind, ties) if ties else "no policy"


def draw_folder(draw, kind, ties, path):
    """Writes a folder of at most 12 contracts into the folder at this path: two to four hospitals in two prefectures, and three to five
    doctors. The kind is that of the policy, or none; names have commas and quotes, so that they are quoted where they are written."""
    hospitals = {"H%d" % k: draw.choice(("North, or so", 'the "South"')) for k in range(1, draw.randint(2, 4) + 1)}
    doctors = ["D%d" % k if k > 1 else "Doe, Jo" for k in range(1, draw.randint(3, 5) + 1)]
    seats = {h: draw.choice((0, 1, 1, 2, 2, 3)) for h in hospitals}
    targets = {h: draw.randint(0, seats[h]) for h in hospitals}
    pairs = draw.sample([(d, h) for d in doctors for h in hospitals], min(MOST_CONTRACTS, len(doctors) * len(hospitals)))
    ranks = {h: [d for d, k in pairs if k == h] for h in hospitals}
    lists = {d: draw.sample(list(hospitals), min(len(hospitals), draw.randint(1, 3))) for d in doctors}
    os.makedirs(path, exist_ok=True)
    write_table(path, "hospitals.csv", ["hospital", "prefecture", "capacity", "target"], [[h, p, seats[h], targets[h]] for h, p in hospitals.items()])
    write_table(path, "doctors.csv", ["doctor", "choices"], [[d, *choices] for d, choices in lists.items()])
    write_table(path, "ranks.csv", ["hospital", "doctors"], [[h, *ranked] for h, ranked in ranks.items()])
    if kind != "none":
        top = {"version": 1, "kind": kind, "ties": ties}
        if ties == "listed":
            top["listed"] = listed_order(draw, ranks)
        entries = flexible_entries(draw, hospitals, seats, targets) if kind == "flexible" else steps_entries(draw, hospitals, seats)
        with open(os.path.join(path, "policy.toml"), "w", encoding="utf-8") as file:
            file.write(lines_of(top) + "".join("\n[[%s]]\n%s" % (table, lines_of(entry)) for table, entry in entries))


def write_table(path, name, header, rows):
    with open(os.path.join(path, name), "w", encoding="utf-8", newline="") as file:
        csv.writer(file, lineterminator="\n").writerows([header] + rows)


def lines_of(entry):
    """The keys of an entry in TOML, which writes texts, numbers and lists of these as JSON does."""
    return "".join("%s = %s\n" % (key, json.dumps(value)) for key, value in entry.items())


def listed_order(draw, ranks):
    """All contracts, drawn so that each hospital's stand in the order of its rank list."""
    left = [h for h in ranks for _ in ranks[h]]
    draw.shuffle(left)
    rest = {h: iter(ranked) for h, ranked in ranks.items()}
    return [[next(rest[h]), h] for h in left]


def flexible_entries(draw, hospitals, seats, targets):
    """For some prefectures a cap that isn't below its targets, and for some of these an order."""
    for prefecture in sorted(set(hospitals.values())):
        inside = [h for h in hospitals if hospitals[h] == prefecture]
        wanted = sum(targets[h] for h in inside)
        entry = {"name": prefecture, "cap": draw.randint(max(1, wanted), max(1, sum(seats[h] for h in inside)))}
        if draw.random() < 0.6:
            entry["order"] = draw.sample(inside, len(inside))
        if draw.random() < 0.85:
            yield "prefecture", entry


def steps_entries(draw, hospitals, seats):
    """Caps of prefectures; groups of hospitals in one prefecture, of that group with the prefecture, and of all; and hospitals' own steps."""
    prefectures, groups, others = sorted(set(hospitals.values())), [], []
    for k, prefecture in enumerate(prefectures):
        inside = [h for h in hospitals if hospitals[h] == prefecture]
        if draw.random() < 0.6:
            others.append(("prefecture", {"name": prefecture, "cap": draw.randint(1, 4)}))
        if draw.random() < 0.6:
            groups.append({"name": "some %d" % k, "hospitals": draw.sample(inside, draw.randint(1, len(inside)))})
            groups.append({"name": "more %d" % k, "prefectures": [prefecture], "groups": ["some %d" % k]})
    if draw.random() < 0.6:
        groups.append({"name": "all", "prefectures": prefectures})
    for group in groups:
        group.update({"cap": draw.randint(1, 4)} if draw.random() < 0.3 else {"steps": falling(draw, draw.randint(2, 6))})
    own = [("hospital", {"name": h, "steps": falling(draw, draw.randint((seats[h] + 1) // 2, seats[h]))}) for h in hospitals if draw.random() < 0.5]
    return others + [("group", group) for group in groups] + own


def falling(draw, count):
    """So many steps that never rise, some of them negative."""
    if count and draw.random() < 0.3:
        return [[draw.randint(0, 3), count, draw.randint(0, 2)]]
    return [[step, 1] for step in sorted((draw.randint(-2, 3) for _ in range(count)), reverse=True)]
