"""A plain model of the service, apart from the program: a list of events that is filtered for each page.

    python3 bench/sessions.py SEED REQUESTS FOLDER

writes FOLDER/SEED.jsonl, a random session of so many requests, and FOLDER/SEED.replies, the replies that the model gives.
The check `checks/sessions` compares the program with such files. The model knows kinds
NOOP, TEXT and NUMBER, and only values for which the normal forms are plain: lower-case words and whole numbers.
"""
import hashlib
import json
import random
import sys

FIELDS = {
    "A": ["x1", "x2", "x3", "x4"],
    "B": ["red", "reed", "green", "blue", "bluer"],
    "C": ["one", "two", "three"],
    "N": [str(n) for n in range(0, 40)],
}
NAMES = ["S", "T", "U"]
VISIBILITIES = ["", "", "", "S", "T", "S&T", "S|U"]
CALLERS = ["ann", "bob", "eve"]
TYPES = ["lab", "obs"]
DAYS = ["202401%02d" % d for d in range(1, 13)] + ["20240229", "20240301", "20241231"]


def sees(names, vis):
    if "&" in vis:
        return all(n in names for n in vis.split("&"))
    if "|" in vis:
        return any(n in names for n in vis.split("|"))
    return vis == "" or vis in names


class Rule:
    def __init__(self, kind="TEXT", indexed=False, reversed_=False):
        self.kind, self.indexed, self.reversed = kind, indexed, reversed_

    def widens(self, old):
        return self.kind == old.kind and self.indexed >= old.indexed and self.reversed >= old.reversed


def number(text):
    return int(text)


class Leaf:
    """One comparison of the values of a field."""

    def __init__(self, field, op, literals):
        self.field, self.op, self.literals = field, op, literals

    def text(self):
        f, op, v = self.field, self.op, self.literals
        if op == "bounded":
            return "((_Bounded_ = true) && (%s >= '%s' && %s < '%s'))" % (f, v[0], f, v[1])
        return "%s %s '%s'" % (f, op, v[0])

    def meets(self, rule, value):
        form = number if rule.kind == "NUMBER" else (lambda t: t)
        v = form(value)
        if self.op in ("==", "!="):
            return v == form(self.literals[0])
        if self.op == "<":
            return v < form(self.literals[0])
        if self.op == ">=":
            return v >= form(self.literals[0])
        if self.op == "bounded":
            return form(self.literals[0]) <= v < form(self.literals[1])
        pattern = self.literals[0]
        word = pattern.strip(".*")
        if pattern.startswith(".*") and pattern.endswith(".*"):
            return word in v
        if pattern.startswith(".*"):
            return v.endswith(word)
        return v.startswith(word)

    def holds(self, rules, view):
        rule = rules.get(self.field, Rule())
        met = any(self.meets(rule, raw) for raw in view.get(self.field, []))
        return not met if self.op == "!=" else met

    def anchored(self, rules, place):
        rule = rules.get(self.field, Rule())
        if self.op == "!=":
            return not place and rule.indexed
        if not place:
            return False
        if self.op in ("==", "bounded"):
            return rule.indexed
        if self.op == "=~":
            pattern = self.literals[0]
            if pattern.startswith(".*"):
                return not pattern.endswith(".*") and rule.reversed
            return rule.indexed
        return False

    def refused(self, rules):
        return self.op == "=~" and rules.get(self.field, Rule()).kind == "NUMBER"


class Not:
    def __init__(self, child):
        self.child = child

    def text(self):
        return "!(%s)" % self.child.text()

    def holds(self, rules, view):
        return not self.child.holds(rules, view)

    def anchored(self, rules, place):
        return self.child.anchored(rules, not place)

    def refused(self, rules):
        return self.child.refused(rules)


class Junction:
    def __init__(self, op, children):
        self.op, self.children = op, children

    def text(self):
        return (" %s " % self.op).join("(%s)" % c.text() for c in self.children)

    def holds(self, rules, view):
        some = all if self.op == "&&" else any
        return some(c.holds(rules, view) for c in self.children)

    def anchored(self, rules, place):
        one = (self.op == "&&") == place
        return (any if one else all)(c.anchored(rules, place) for c in self.children)

    def refused(self, rules):
        return any(c.refused(rules) for c in self.children)


def random_leaf(dice):
    field = dice.choice(list(FIELDS))
    if field == "N":
        op = dice.choice(["==", "!=", "<", ">=", "bounded"])
        low = dice.randrange(0, 35)
        return Leaf(field, op, [str(low), str(low + dice.randrange(1, 20))])
    op = dice.choice(["==", "==", "!=", "=~", "=~"])
    value = dice.choice(FIELDS[field])
    if op == "=~":
        cut = dice.randrange(1, len(value))
        value = dice.choice([value[:cut] + ".*", ".*" + value[cut:], ".*" + value[cut : cut + 1] + ".*"])
    return Leaf(field, op, [value])


def random_query(dice, depth):
    if depth == 0 or dice.random() < 0.4:
        return random_leaf(dice)
    if dice.random() < 0.2:
        return Not(random_query(dice, depth - 1))
    children = [random_query(dice, depth - 1) for _ in range(dice.randrange(2, 4))]
    return Junction(dice.choice(["&&", "||"]), children)


def place_of(record_type, day, cells):
    canon = record_type.encode() + b"\0" + day.encode() + b"\0"
    for field, raw, vis in sorted(tuple(p.encode() for p in c) for c in cells):
        canon += field + b"\0" + raw + b"\0" + vis + b"\0"
    uid = hashlib.sha256(canon).digest()
    return ("%s_%d" % (day, int.from_bytes(uid[:8], "big") % 16), record_type, uid.hex())


class Service:
    def __init__(self):
        self.rules, self.grants, self.last, self.events = {}, {}, 0, {}
        self.given, self.queries = {}, {}

    def define(self, field, kind, indexed, reversed_):
        rule = Rule(kind, indexed, reversed_)
        if self.last and not rule.widens(self.rules.get(field, Rule())):
            return {"error": "notEmpty"}
        self.rules = dict(self.rules)
        self.rules[field] = rule
        return {"ok": "define"}

    def ingest(self, records):
        new = repeat = 0
        for day, record_type, cells in records:
            place = place_of(record_type, day, cells)
            if place in self.events:
                repeat += 1
            else:
                new += 1
                self.events[place] = (set(cells), self.last + 1)
        self.last += 1 if new else 0
        return {"bad": [], "new": new, "ok": "ingest", "repeat": repeat}

    def create(self, caller, query, first, last, size, asked, types):
        if query.refused(self.rules):
            return {"error": "malformed", "why": "literal"}
        if not query.anchored(self.rules, True):
            return {"error": "unanchored"}
        names = self.grants.get(caller, set())
        if asked is not None:
            names = names & set(asked)
        number_ = self.given.get(caller, 0) + 1
        self.given[caller] = number_
        self.queries[caller, number_] = (query, self.rules, names, self.last, first, last, size, types)
        return {"number": number_, "ok": "create"}

    def answer(self, caller, number_):
        query, rules, names, snapshot, first, last, size, types = self.queries[caller, number_]
        shown = []
        for place in sorted(self.events, key=lambda p: tuple(t.encode() for t in p)):
            cells, batch = self.events[place]
            day, record_type = place[0][:8], place[1]
            if batch > snapshot or not first <= day <= last or (types and record_type not in types):
                continue
            view = {}
            for field, raw, vis in cells:
                if sees(names, vis):
                    view.setdefault(field, set()).add(raw)
            if view and query.holds(rules, view):
                fields = {f: sorted(view[f]) for f in view}
                shown.append({"fields": fields, "shard": place[0], "type": record_type, "uid": place[2]})
        return shown, size

    def page(self, caller, number_, page):
        if (caller, number_) not in self.queries:
            return {"error": "notOwned"}
        shown, size = self.answer(caller, number_)
        start = (page - 1) * size
        return {"events": shown[start : start + size], "more": len(shown) > start + size, "ok": "page"}

    def close(self, caller, number_):
        if self.queries.pop((caller, number_), None) is None:
            return {"error": "notOwned"}
        return {"ok": "close"}


def random_record(dice):
    day, record_type = dice.choice(DAYS), dice.choice(TYPES)
    cells = set()
    for field in dice.sample(list(FIELDS), dice.randrange(1, 5)):
        for _ in range(dice.randrange(1, 4)):
            cells.add((field, dice.choice(FIELDS[field]), dice.choice(VISIBILITIES)))
    return day, record_type, cells


def record_line(record):
    day, record_type, cells = record
    fields = {}
    for field, raw, vis in sorted(cells):
        fields.setdefault(field, []).append({"value": raw, "vis": vis} if vis else raw)
    return {"type": record_type, "date": day, "fields": fields}


class Session:
    def __init__(self, seed):
        self.dice, self.service, self.known, self.pages = random.Random(seed), Service(), [], {}

    def define(self):
        field = self.dice.choice(list(FIELDS))
        kind = "NUMBER" if field == "N" else "TEXT" if field == "B" else "NOOP"
        indexed = self.dice.random() < 0.8
        reversed_ = indexed and self.dice.random() < 0.5
        line = {"op": "define", "field": field, "kind": kind, "indexed": indexed, "reversed": reversed_}
        return line, self.service.define(field, kind, indexed, reversed_)

    def grant(self):
        caller = self.dice.choice(CALLERS)
        names = self.dice.sample(NAMES, self.dice.randrange(0, 4))
        self.service.grants[caller] = set(names)
        return {"op": "grant", "caller": caller, "auths": names}, {"ok": "grant"}

    def ingest(self):
        records = [random_record(self.dice) for _ in range(self.dice.randrange(1, 25))]
        records += self.dice.sample(self.known, min(len(self.known), self.dice.randrange(0, 3)))
        self.known += records
        line = {"op": "ingest", "records": [record_line(r) for r in records]}
        return line, self.service.ingest(records)

    def create(self):
        caller, query = self.dice.choice(CALLERS), random_query(self.dice, 3)
        first, last = sorted(self.dice.sample(DAYS, 2)) if self.dice.random() < 0.5 else (DAYS[0], DAYS[-1])
        size = self.dice.randrange(1, 9)
        line = {"op": "create", "caller": caller, "query": query.text(), "from": first, "to": last, "size": size}
        asked = self.dice.sample(NAMES, 2) if self.dice.random() < 0.3 else None
        types = ["obs"] if self.dice.random() < 0.2 else None
        line.update({"auths": asked} if asked is not None else {}, **({"types": types} if types else {}))
        return line, self.service.create(caller, query, first, last, size, asked, types)

    def page(self):
        """Most pages are in turn, some are asked again, some are out of turn or of another's query."""
        open_ = list(self.service.queries)
        if not open_ or self.dice.random() < 0.05:
            caller, number_, page = self.dice.choice(CALLERS), self.dice.randrange(1, 40), 1
        else:
            caller, number_ = self.dice.choice(open_)
            last = self.pages.get((caller, number_), 0)
            page = last + 1 if self.dice.random() < 0.7 else self.dice.randrange(1, last + 3)
            self.pages[caller, number_] = page
        line = {"op": "page", "caller": caller, "number": number_, "page": page}
        return line, self.service.page(caller, number_, page)

    def close(self):
        open_ = list(self.service.queries)
        if not open_ or self.dice.random() < 0.2:
            caller, number_ = self.dice.choice(CALLERS), self.dice.randrange(1, 40)
        else:
            caller, number_ = self.dice.choice(open_)
        line = {"op": "close", "caller": caller, "number": number_}
        return line, self.service.close(caller, number_)

    def step(self, at):
        if at < 6:
            kinds = [self.define, self.define, self.grant]
        elif at < 10:
            kinds = [self.ingest]
        else:
            kinds = [self.page] * 12 + [self.create] * 5 + [self.ingest] * 2 + [self.close, self.grant, self.define]
        return self.dice.choice(kinds)()


def compact(value):
    return json.dumps(value, sort_keys=True, separators=(",", ":"), ensure_ascii=False)


def main():
    seed, requests, folder = int(sys.argv[1]), int(sys.argv[2]), sys.argv[3]
    session = Session(seed)
    with open("%s/%d.jsonl" % (folder, seed), "w") as lines, open("%s/%d.replies" % (folder, seed), "w") as replies:
        for at in range(requests):
            line, reply = session.step(at)
            lines.write(json.dumps(line, separators=(",", ":")) + "\n")
            replies.write(compact(reply) + "\n")


if __name__ == "__main__":
    main()
