"""Audits traces by the rules of docs/AUDIT.md, apart from the program, and compares.

    geo_tools audit FILE.geo ..          the trace of each script, and many changed ones, audited here and by the program (tools/build), by
                                         `audit` and by `audit whole`
    geo_tools audit --changed N FILE.geo ..   so many changed traces of each, 20 without it

Plain lists and walks, so that the rules can be read; it needs nothing but python3 and a build.
"""

import random
import re
import subprocess
import sys

from ..program import NO_PROGRAM, built_program

NUMBER = re.compile(r"(0|[1-9][0-9]*)\Z")
NAME = re.compile(r"[a-z0-9_]{1,16}\Z")
TEXT = re.compile(r"[ -~]+\Z")


class Bad(Exception):
    """A line without a reading."""


def number(word):
    if not NUMBER.match(word) or int(word) >= 2**64:
        raise Bad
    return int(word)


def position(word):
    parts = word.split(":")
    if len(parts) != 2:
        raise Bad
    return number(parts[0]), number(parts[1])


def one_of(names, word):
    if word not in names:
        raise Bad
    return names.index(word)


def sub_name(word):
    if not NAME.match(word):
        raise Bad
    return word


def text(word):
    if not TEXT.match(word):
        raise Bad
    return word


def pair(clusters, word):
    parts = word.split("=")
    if len(parts) != 2:
        raise Bad
    return place(clusters, parts[0]), position(parts[1])


def place(clusters, word):
    text(word)
    return clusters.index(word) if word in clusters else word


def targets(clusters, word):
    """None for all clusters, else the set that is named."""
    if word == "*":
        return None
    if word == "?":
        return frozenset()
    named = frozenset(clusters.index(w) for w in word.split(",") if w in clusters)
    if not word or word != ",".join(c for i, c in enumerate(clusters) if i in named):
        raise Bad
    return named


def ranges(word):
    if word == "-":
        return []
    out, least = [], 0
    for part in word.split(","):
        ends = part.split("-")
        if len(ends) != 2:
            raise Bad
        first, last = number(ends[0]), number(ends[1])
        if first > last or first < least:
            raise Bad
        out.append((first, last))
        least = last + 2
    return out


def what(clusters, own, words):
    """What an entry is, and the position behind `by`."""
    kind, rest = words[0], words[1:]
    if kind == "data":
        if len(rest) < 2:
            raise Bad
        key = None if rest[0] == "-" else text(rest[0])
        payload = " ".join(rest[1:])
        if payload and not TEXT.match(payload):
            raise Bad
        return ("data", key, payload), None
    if kind == "request" and len(rest) == 2:
        return ("request", text(rest[0]), place(clusters, rest[1])), None
    if kind == "response" and len(rest) == 2:
        return ("response", text(rest[0]), pair(clusters, rest[1])), None
    if kind == "snapshot" and len(rest) >= 2:
        return ("snapshot", text(rest[0]), position(rest[1]), tuple(pair(clusters, w) for w in rest[2:])), None
    if kind == "update" and rest:
        by = None
        if own:
            if len(rest) < 3 or rest[-2] != "by" or "by" in rest[1:-2]:
                raise Bad
            rest, by = rest[:-2], position(rest[-1])
        return ("update", sub_name(rest[0]), tuple(pair(clusters, w) for w in rest[1:])), by
    if kind == "unread" and not rest:
        return ("unread",), None
    raise Bad


class Topic:
    def __init__(self):
        self.entries, self.positions, self.subs = [], [], {}

    def index(self, p):
        return self.positions.index(p) if p in self.positions else None


def is_data(e):
    return e[4][0] == "data"


def meant_for(y, e):
    return e[0] == y or e[3] is None or y in e[3]


def positions_for(y, pairs):
    return [p for c, p in pairs if c == y]


class Audit:
    def __init__(self, clusters, topics, whole=False):
        self.clusters, self.topics, self.whole, self.event = clusters, topics, whole, 0
        self.at = {(t, x): Topic() for t in range(len(topics)) for x in range(len(clusters))}

    def line(self, line):
        """None, or the lowest rule that it breaks."""
        words = line.split(" ")
        try:
            if words[0] == "event":
                if len(words) != 2 or number(words[1]) != self.event + 1:
                    raise Bad
                self.event += 1
                return None
            if len(words) < 3:
                raise Bad
            t, x = one_of(self.topics, words[1]), one_of(self.clusters, words[2])
            act = self.read(words[0], x, words[3:])
        except Bad:
            return 1
        return 1 if self.event == 0 else act(self.at[t, x], t, x)

    def read(self, kind, x, words):
        if kind == "append" and len(words) >= 6:
            p, origin = position(words[0]), one_of(self.clusters, words[1])
            producer, seq, to = text(words[2]), number(words[3]), targets(self.clusters, words[4])
            content, by = what(self.clusters, origin == x, words[5:])
            return lambda m, t, x: self.append(m, t, x, p, (origin, producer, seq, to, content), by)
        if kind == "create" and len(words) == 2 and words[1] in ("latest", "earliest"):
            name = sub_name(words[0])
            return lambda m, t, x: self.create(m, name, words[1] == "latest")
        if kind == "delete" and len(words) == 1:
            name = sub_name(words[0])
            return lambda m, t, x: self.delete(m, name)
        if kind == "ack" and len(words) in (3, 4):
            name, gained, why = sub_name(words[0]), ranges(words[1]), words[2]
            if (why in ("client", "marker")) != (len(words) == 3) or why not in ("client", "marker", "update"):
                raise Bad
            p = position(words[3]) if why == "update" else None
            return lambda m, t, x: self.ack(m, x, name, gained, why, p)
        if kind == "seek" and len(words) == 2:
            name, to = sub_name(words[0]), number(words[1])
            return lambda m, t, x: self.seek(m, name, to)
        raise Bad

    def append(self, m, t, x, p, e, by):
        origin, producer, seq, to, content = e
        if m.positions and not m.positions[-1] < p:
            return 2
        if any(f[0] == origin and f[1] == producer and f[2] >= seq for f in m.entries):
            return 3
        if origin != x and not (e in self.at[t, origin].entries and meant_for(x, e)):
            return 4
        if origin == x and content[0] == "snapshot" and not self.is_cut(m, t, x, content[2], content[3]):
            return 5
        if origin == x and content[0] == "update" and not self.tells(m, x, content[1], content[2], by):
            return 6
        if self.whole and origin != x and not self.is_next(m, t, x, e):
            return 12
        m.entries.append(e)
        m.positions.append(p)
        return None

    def is_next(self, m, t, x, e):
        for_here = [f for f in self.at[t, e[0]].entries if f[0] == e[0] and (f[3] is None or x in f[3])]
        stored = sum(f[0] == e[0] for f in m.entries)
        return stored < len(for_here) and for_here[stored] == e

    def is_cut(self, m, t, x, local, pairs):
        others = [y for y in range(len(self.clusters)) if y != x]
        if len(pairs) != len(others) or any(len(positions_for(y, pairs)) != 1 for y in others):
            return False
        last = m.index(local)
        if last is None:
            return False
        here = m.entries[: last + 1]
        for y in others:
            there = self.at[t, y]
            upto = there.index(positions_for(y, pairs)[0])
            if upto is None:
                return False
            if any(is_data(f) and meant_for(x, f) and f not in here for f in there.entries[: upto + 1]):
                return False
        return True

    def tells(self, m, x, name, pairs, by):
        at = m.index(by)
        if at is None or name not in m.subs:
            return False
        e = m.entries[at]
        if e[0] != x or e[4][0] != "snapshot":
            return False
        named = e[4][3]
        if len(named) != len(pairs) or any(positions_for(y, named) != positions_for(y, pairs) for y in range(len(self.clusters))):
            return False
        local, mark = m.index(e[4][2]), 0
        while mark in m.subs[name]:
            mark += 1
        return local is not None and local < mark

    def create(self, m, name, latest):
        if name in m.subs:
            return 7
        m.subs[name] = set(range(len(m.entries))) if latest else set()
        return None

    def delete(self, m, name):
        if name not in m.subs:
            return 7
        del m.subs[name]
        return None

    def seek(self, m, name, to):
        if name not in m.subs:
            return 7
        if to > len(m.entries):
            return 11
        m.subs[name] = set(range(to))
        return None

    def ack(self, m, x, name, gained, why, p):
        if name not in m.subs:
            return 7
        if any(last >= len(m.entries) for _, last in gained):
            return 8
        indexes = [i for first, last in gained for i in range(first, last + 1)]
        if any(i in m.subs[name] for i in indexes):
            return 8
        if why == "marker" and any(is_data(m.entries[i]) for i in indexes):
            return 9
        if why == "update" and not self.passes(m, x, name, indexes, p):
            return 10
        m.subs[name].update(indexes)
        return None

    def passes(self, m, x, name, indexes, p):
        at = m.index(p)
        if at is None:
            return False
        origin, content = m.entries[at][0], m.entries[at][4]
        if content[0] != "update" or content[1] != name or origin == x:
            return False
        named = positions_for(x, content[2])
        last = m.index(named[0]) if len(named) == 1 else None
        if last is None:
            return False
        return all(i <= last and (not is_data(m.entries[i]) or meant_for(origin, m.entries[i])) for i in indexes)


def audited(clusters, topics, trace, whole=False):
    audit = Audit(clusters, topics, whole)
    lines = trace.split("\n")
    if len(lines) < 2 or lines[0] != "trace":
        return "audit refused 0 rule 1\n"
    for line in lines[1:-1]:
        rule = audit.line(line)
        if rule is not None:
            return f"audit refused {audit.event} rule {rule}\n"
    if lines[-1] != "":
        return f"audit refused {audit.event} rule 1\n"
    return f"audit ok events {audit.event}\n"


def changed(trace, clusters, rng):
    """The trace with a line or two changed, left out, doubled, moved, or cut."""
    lines = trace.split("\n")
    for _ in range(rng.choice([1, 1, 1, 2])):
        i = rng.randrange(len(lines))
        kind = rng.randrange(7)
        if kind == 0:
            del lines[i]
        elif kind == 1:
            lines.insert(i, lines[rng.randrange(len(lines))])
        elif kind == 2:
            j = rng.randrange(len(lines))
            lines[i], lines[j] = lines[j], lines[i]
        elif kind == 3 and lines[i]:
            words = lines[i].split(" ")
            j = rng.randrange(len(words))
            other = rng.choice(lines).split(" ")
            words[j] = rng.choice(other + ["0-0", "1-2", "client", "marker", "update", "0:1", "0", "7", "*", "-"] + clusters)
            lines[i] = " ".join(words)
        elif kind == 4:
            found = list(re.finditer(r"[0-9]+", lines[i]))
            if found:
                m = rng.choice(found)
                lines[i] = lines[i][: m.start()] + str(max(0, int(m.group()) + rng.choice([-1, 1, 2]))) + lines[i][m.end() :]
        elif kind == 5 and lines[i]:
            k = rng.randrange(len(lines[i]))
            lines[i] = lines[i][:k] + rng.choice("abct01:-, =*?") + lines[i][k + rng.randrange(2) :]
        elif kind == 6:
            words = [w for w in lines if w.startswith(("ack", "append"))]
            if words:
                j = lines.index(rng.choice(words))
                lines[j] = re.sub(r"(client|marker|update [0-9:]+)\Z", rng.choice(["client", "marker", "update 0:1", "update 0:2"]), lines[j])
        if not lines:
            lines = [""]
    return "\n".join(lines)


def main(words):
    count = 20
    if words[:1] == ["--changed"]:
        count, words = int(words[1]), words[2:]
    if not words:
        print(__doc__, file=sys.stderr)
        return 2
    program = built_program()
    if program is None:
        print("geo_tools audit: there is no build of this source (tools/build makes one)", file=sys.stderr)
        return NO_PROGRAM
    rng, wrong, done, rules = random.Random(1), 0, 0, {}
    for file in words:
        with open(file, "rb") as f:
            whole = subprocess.run([program, "trace"], input=f.read(), capture_output=True).stdout.decode()
        at = whole.index("\ntrace\n") + 1
        head, trace = whole[:at], whole[at:]
        clusters = re.findall(r"^cluster (\S+)$", head, re.M)
        topics = re.findall(r"^topic (\S+)$", head, re.M)
        for n in range(count + 1):
            tried = trace if n == 0 else changed(trace, clusters, rng)
            if n and not tried.startswith("trace\n") and "\ntrace\n" in tried:
                continue
            for command in ["audit"], ["audit", "whole"]:
                here = audited(clusters, topics, tried, len(command) > 1)
                there = subprocess.run([program, *command], input=(head + tried).encode(), capture_output=True).stdout.decode()
                done += 1
                answer = " ".join(here.split()[:2] + here.split()[3:]) if here.startswith("audit refused") else "audit ok"
                rules[answer] = rules.get(answer, 0) + 1
                if here != there and not there.startswith("bad script"):
                    wrong += 1
                    print(f"{file}: {' '.join(command)}: here {here.strip()}, the program {there.strip()}")
                    with open(f"/tmp/audited_{wrong}", "w") as f:
                        f.write(head + tried)
    for answer in sorted(rules):
        print(f"{rules[answer]:6} {answer}")
    print(f"{done} audits, {wrong} answered otherwise by the program")
    return 1 if wrong else 0

