#!/usr/bin/env python3
"""What `sent`, `explain`, `attests`, `peers`, `neighbours`, `routes` and `silent` write is what plain lists give by the definitions, and agrees
with what other commands write.

Usage: asked.py PROGRAM [FIRST LAST]. Each of the seeds from FIRST to LAST (from 1 to 2000 without them) draws a script over a small table: few
ASes, prefixes within each other in both families, path identifiers, sets and prepends, roles, all that attests, and moments. Behind some changes
it asks drawn questions, some of them misspelled, and at its end many: the whole text is compared, and is a test. Each law is one more: it reads
the last questions and their answers in the program's own text, and must hold in each script.

Prints the seed of each script whose text isn't as wanted or that breaks a law, and how much was drawn of each kind, which is a test too where no
seeds are given. The last line is 'N passed, M failed', and the status is 0 where none failed.
"""
import base64
import collections
import ipaddress
import json
import multiprocessing
import os
import random
import sys

from answers import LONGEST, VERDICTS, Asked, Attestation
from asked_laws import LAWS, Told
from costs import payload
from plainly import Path, announcement, chain_of
from suspects import ROLES, Drawn

CAUSES = {32: "Command", 33: "Words", 34: "Number", 37: "NoFile", 39: "NoRoute"}
NETS = [ipaddress.ip_network(net) for net in (
    "0.0.0.0/0", "10.0.0.0/8", "10.0.0.0/9", "10.1.0.0/16", "10.1.2.0/24", "10.1.2.128/25", "10.1.2.255/32", "10.1.3.0/24", "11.0.0.0/8",
    "::/0", "2001:db8::/32", "2001:db8::/33", "2001:db8:8000::/33", "2001:db8::1/128", "a00::/8")]
CONDITIONS = ["verdict", "peer", "from", "prefix", "within", "covering", "origin", "through"]
MOMENTS = [0, 4, 5, 9, 10, 4294967295]

# What isn't spelled as a number, and what isn't as any other word.
NO_NUMBERS = ["x", "01", "4294967296", "-1", "AS1", "customer"]
NO_WORDS = ["bogus", "Valid", "10.0.0.1/8", "::1", "default"]


def text_of(value):
    """Of a word's value: addresses and networks without shortening."""
    return value.exploded if hasattr(value, "exploded") else str(value)


class Asking(Drawn):
    """A script and its answers. A question is its words, each a value, and what it writes where it isn't refused."""
    ANALYSIS = Asked

    def __init__(self, draw):
        self.loaded, self.last = 0, []
        super().__init__(draw, 1)
        self.asns = self.ases + [0, 64999]
        for _ in range(draw.randrange(1, 4)):
            for _ in range(draw.randrange(1, 5)):
                self.change_table()
            self.announce()
            self.analysis.settle()
            for _ in range(draw.randrange(8)):
                self.put(self.question())
        self.finish()

    # ---- what there is

    def draw_route(self):
        (peer, _, number), path = super().draw_route()
        if self.draw.random() < 0.1:
            path = Path(path.set, path.ases + path.ases[-1:] * 2)
        return (peer, self.draw.choice(NETS), number), path

    def announce(self):
        routes = [self.draw_route() for _ in range(self.draw.randrange(1, 7))]
        self.analysis.routes.update(routes)
        self.take([announcement(*key, path) for key, path in routes])

    def change_table(self):
        some = self.draw.choice(self.ases)
        parts = self.analysis.parts
        kind = self.draw.randrange(20)
        if kind < 3:
            self.attest(some)
        elif kind < 5:
            self.lines.append(f"unassert {some}")
            parts.asserted["hand"].pop(some, None)
        elif kind < 7:
            self.lines.append(f"filter {some}")
            parts.filtered["hand"].add(some)
        elif kind == 7:
            self.lines.append(f"unfilter {some}")
            parts.filtered["hand"].discard(some)
        elif kind < 10:
            parts.moment = self.draw.choice(MOMENTS)
            self.lines.append(f"at {parts.moment}")
        elif kind < 15:
            self.load()
        elif kind == 15:
            self.slurm()
        else:
            self.draw.choice([self.change_role, self.change_role, self.leave, self.end, self.clear])()

    def attest(self, asn):
        """By hand, or not."""
        if self.draw.random() < 0.4:
            return
        providers = self.draw.choices([0] + self.ases, k=self.draw.randrange(1, 4))
        self.analysis.parts.asserted["hand"].setdefault(asn, set()).update(providers)
        self.lines.append(f"assert {asn} {' '.join(map(str, providers))}")

    def file(self, data):
        self.loaded += 1
        self.files[f"file{self.loaded}"] = data
        return f"file{self.loaded}"

    def load(self):
        """A source of each kind, under one of few names, and at times a file that isn't there."""
        name = self.draw.choice(["b", "a", "until", "ended", "0"])
        if self.draw.random() < 0.1:
            self.refuse(f"{self.draw.choice(['aspa', 'aspa64', 'validated'])} {name} nowhere", 37)
            return
        held = [self.draw_attestation() for _ in range(self.draw.randrange(6))]
        kind = self.draw.choice(["aspa", "aspa64", "validated", "validated"])
        if kind == "validated":
            if self.draw.random() < 0.1:
                held.append(Attestation(self.draw.choice(self.ases), None, tuple(range(self.draw.randrange(40), 1300))))
            if self.draw.random() < 0.2:
                held += [Attestation(self.ases[0], held[0].end if held else None, providers) for providers in ((), (0,))]
            data = json.dumps({"aspas": [self.element(*one) for one in held]}).encode()
        else:
            held = [Attestation(customer, end, tuple(asn for asn in providers if asn != customer) or (7777,)) for customer, end, providers in held]
            if kind == "aspa64":
                ends = [b"" if end is None else b" %d" % end for _, end, _ in held]
                data = b"".join(base64.b64encode(payload(one.customer, one.providers)) + end + b"\n" for one, end in zip(held, ends))
            else:
                data = b"".join(payload(one.customer, one.providers) for one in held)
                united = {customer: [asn for one in held if one.customer == customer for asn in one.providers] for customer, _, _ in held}
                held = [Attestation(customer, None, tuple(sorted(set(asns)))) for customer, asns in united.items()]
        self.lines.append(f"{kind} {name} {self.file(data)}")
        self.analysis.parts.sources[name] = set(held)

    def draw_attestation(self):
        """Of few customers, so that one has several, and often one that names no provider."""
        providers = self.draw.choice([[], [0]]) if self.draw.random() < 0.3 else self.draw.choices([0] + self.ases, k=self.draw.randrange(1, 4))
        return Attestation(self.draw.choice(self.ases[:3]), self.draw.choice([None, None, *MOMENTS]), tuple(sorted(set(providers))))

    def element(self, customer, end, providers):
        """Of a validator's file, in one of its spellings."""
        said = self.draw.sample(providers, len(providers)) + list(providers[:1])
        if self.draw.random() < 0.5:
            said = [f"AS{asn}" for asn in said]
        return {self.draw.choice(["customer", "customer_asid"]): customer, "providers": said, **({} if end is None else {"expires": end})}

    def slurm(self):
        filters = self.draw.sample(self.ases, self.draw.randrange(3))
        rows = [(self.draw.choice(self.ases), self.draw.sample([0] + self.ases, self.draw.randrange(3))) for _ in range(self.draw.randrange(3))]
        filtered, asserted = [{"customerAsn": asn} for asn in filters], [{"customerAsn": asn, "providerAsns": providers} for asn, providers in rows]
        text = {"slurmVersion": 2, "validationOutputFilters": {"prefixFilters": [], "bgpsecFilters": [], "aspaFilters": filtered},
                "locallyAddedAssertions": {"prefixAssertions": [], "bgpsecAssertions": [], "aspaAssertions": asserted}}
        self.lines.append(f"slurm {self.file(json.dumps(text).encode())}")
        parts = self.analysis.parts
        parts.filtered["slurm"] = set(filters)
        parts.asserted["slurm"] = {asn: {provider for other, providers in rows if other == asn for provider in providers} for asn, _ in rows}

    # ---- questions

    def question(self):
        kind = self.draw.choice(["sent", "sent", "explain", "explain", "attests", "attests", "peers", "neighbours", "routes", "routes", "silent"])
        analysis, some = self.analysis, self.draw.choice(self.asns)
        if kind == "sent":
            return self.sent_of(self.draw.choice(ROLES), self.draw_ases(1))
        if kind == "explain":
            held = self.draw.random() < 0.5
            return self.explain_held(self.draw_key()) if held else self.explain_typed(self.draw.choice(ROLES), some, self.draw_ases(0))
        if kind == "attests":
            return (["attests"], analysis.assertions()) if self.draw.random() < 0.3 else (["attests", some], analysis.parts.told(some))
        if kind == "neighbours":
            return ["neighbours", some], analysis.neighbours(some)
        if kind == "routes":
            return self.routes_that([self.draw_condition(word) for word in self.draw_words()])
        return [kind], analysis.sessions() if kind == "peers" else analysis.silent()

    def draw_ases(self, least):
        """Some of them twice, and often one that paths begin with last."""
        ases = self.draw.choices(self.asns, k=self.draw.randrange(least, 5))
        if self.draw.random() < 0.3:
            ases.append(self.draw.choice(self.peers).asn)
        return [asn for asn in ases for _ in range(self.draw.choice([1, 1, 1, 2]))]

    def draw_key(self):
        if self.analysis.routes and self.draw.random() < 0.9:
            return self.draw.choice(list(self.analysis.routes))
        return self.draw_route()[0]

    def draw_words(self):
        return self.draw.sample(CONDITIONS, self.draw.choice([0, 1, 1, 1, 2, 2, 3, 4]))

    def draw_condition(self, word):
        if word == "verdict":
            return word, self.draw.choice(VERDICTS)
        if word == "from":
            return word, self.draw.choice(self.peers).address
        if word in ("prefix", "within", "covering"):
            return word, self.draw.choice(NETS)
        return word, self.draw.choice(self.asns)

    def sent_of(self, role, ases):
        return ["sent", role, *ases], self.analysis.sent(role, ases)

    def explain_typed(self, role, neighbour, ases):
        standing = self.analysis.judged_as(role, neighbour, ases)
        return ["explain", role, neighbour, *ases], self.analysis.explained(standing, Path(False, tuple(ases)))

    def explain_held(self, key):
        peer, net, number = key
        words = ["explain", ipaddress.ip_address(self.peers[peer].address), self.peers[peer].asn, net] + ([] if number is None else [number])
        if key not in self.analysis.routes:
            return words, 39
        return words, self.analysis.explained(self.analysis.standing(key), self.analysis.routes[key])

    def routes_that(self, conditions):
        words = [word if place else ipaddress.ip_address(word) if name == "from" else word
                 for name, value in conditions for place, word in ((1, name), (0, value))]
        return ["routes", *words], self.analysis.those(conditions)

    # ---- lines

    def refuse(self, line, cause):
        self.ask(line, [f"! line {len(self.lines) + 1} cause {cause} {CAUSES[cause]}"])

    def put(self, question):
        """A line of this question, misspelled at times, with blanks of its own."""
        words, answers = question
        words, cause = self.spoilt(words) if self.draw.random() < 0.15 else (list(map(text_of, words)), None)
        blanks = [self.draw.choice(["", "", " ", "\t"])] + self.draw.choices([" ", " ", " ", "  ", "\t"], k=len(words) - 1)
        line = "".join(blank + word for blank, word in zip(blanks, words)) + self.draw.choice(["", "", " ", "\r"])
        if cause or answers == 39:
            self.refuse(line, cause or answers)
        else:
            self.ask(line, answers)

    def spoilt(self, words):
        """Some words misspelled, or the wrong number of them, and the cause: words are looked at before numbers."""
        said, causes = list(map(text_of, words)), set()
        for place in self.draw.sample(range(len(words)), self.draw.randrange(1, min(3, len(words)) + 1)):
            kind = self.draw.random()
            if place == 0:
                if kind < 0.2:
                    said[0], causes = said[0].capitalize(), causes | {32}
            elif kind < 0.1:
                said[place], causes = said[place] + "\x7f", causes | {33}
            elif isinstance(words[place], int):
                said[place], causes = self.draw.choice(NO_NUMBERS), causes | {34}
            else:
                said[place], causes = self.draw.choice(NO_WORDS), causes | {33}
        if not causes:
            said, causes = self.miscounted(words, said), {33}
        return said, min(causes)

    def miscounted(self, words, said):
        if words[0] == "sent" or words[0] == "explain" and words[1] in ROLES:
            return said[:2]
        if words[0] == "routes":
            return said + said[1:3] if len(said) > 1 and self.draw.random() < 0.5 else said + ["peer"]
        return said + ["1"] * (3 if words[0] == "explain" else 2)

    # ---- the last questions

    def know(self, line, answers):
        """Asks, with a mark in the text before it by which the laws find the answer."""
        self.lines.append(f"say {len(self.last)}")
        self.wanted.append(f"# {len(self.last)}")
        self.last.append(line)
        self.ask(line, answers)

    def know_that(self, question):
        self.know(" ".join(map(text_of, question[0])), question[1])

    def finish(self):
        """All that the laws speak of."""
        analysis = self.analysis
        self.know("peers", analysis.sessions())
        self.know("summary", analysis.summary(sum(line.startswith("! ") for line in self.wanted)))
        self.know("report", analysis.report())
        self.know("details", analysis.details())
        self.know("silent", analysis.silent())
        self.know("attests", analysis.assertions())
        for asn in sorted({*self.asns, *analysis.table}):
            self.know_that((["attests", asn], analysis.parts.told(asn)))
            self.know_that((["neighbours", asn], analysis.neighbours(asn)))
        for key in analysis.keys():
            words, answers = self.explain_held(key)
            self.know_that((["why", *words[1:]], answers[:1]))
            self.know_that((words, answers))
        for _ in range(2):
            role, ases = self.draw.choice(ROLES), self.draw_ases(1)
            self.judge(role, ases[0], ases)
            self.know_that(self.explain_typed(role, ases[0], ases))
            for key in analysis.keys():
                if not analysis.routes[key].set:
                    self.judge(role, ases[0], ases + chain_of(analysis.routes[key])[::-1])
            self.know_that(self.sent_of(role, ases))
            self.know_that(self.routes_that([self.draw_condition(word) for word in self.draw_words()]))

    def judge(self, role, neighbour, ases):
        self.know_that((["judge", role, neighbour, *ases], [self.analysis.judged_as(role, neighbour, ases).verdict]))


# ---- the tests

def kinds_of(script):
    """How much of each kind is wanted."""
    words = [line.split() for line in script.wanted if not line.startswith(("# ", "! "))]
    kinds = collections.Counter(f"own {row[1]}" for row in words if row[0] == "own")
    kinds.update(line.split()[-1] for line in script.wanted if line.startswith("! "))
    kinds.update(f"climb {row[row.index('climb') + 1]}" for row in words if "climb" in row)
    kinds.update(word for row in words for word in ("until", "ended", "filtered", "slurm", "hand", "none", "set", "own", "default") if word in row)
    kinds["asked about"] = sum(len(row) == 5 and row[1] == "routes" for row in words)
    kinds["full lines"] = sum(len(line) > LONGEST - 5 for line in script.wanted if line.startswith("assert "))
    kinds["alike"] = sum(one == other and one.startswith("source ") for one, other in zip(script.wanted, script.wanted[1:]))
    return kinds


def tried(given):
    """The first difference of a seed's text, if there is one, the laws that it breaks, and how much was drawn."""
    program, seed = given
    script = Asking(random.Random(seed))
    text, status = script.performed(program)
    difference = None
    if (text, status) != (script.wanted, int(any(line.startswith("! ") for line in script.wanted))):
        pairs = enumerate(zip(text + ["no line more"], script.wanted + ["no line more"]), 1)
        difference = next((f"text line {number}: wanted: {due}\ngot: {got}" for number, (got, due) in pairs if got != due), f"status {status}")

    def performed(lines):
        script.lines = lines
        return script.performed(program)

    broken = [law for law, holds in LAWS.items() if not kept(holds, text, script.last, performed)]
    return seed, difference, broken, kinds_of(script)


def kept(holds, text, questions, performed):
    """Whether a law holds; a text that can't be read breaks it."""
    try:
        return holds(Told(text, questions), performed)
    except (ValueError, KeyError, IndexError, TypeError):
        return False


def main():
    program = os.path.abspath(sys.argv[1])
    first, last = map(int, sys.argv[2:4]) if len(sys.argv) > 2 else (1, 2000)
    passed, failed, kinds, broken = 0, 0, collections.Counter(), collections.defaultdict(list)
    with multiprocessing.Pool(min(2, os.cpu_count() or 1)) as pool:
        for seed, difference, laws, drawn in pool.imap(tried, ((program, seed) for seed in range(first, last + 1)), 20):
            passed += difference is None
            failed += difference is not None
            kinds += drawn
            if difference:
                print(f"seed {seed}: the text or the status isn't as wanted; {difference}")
            for law in laws:
                broken[law].append(seed)
    print(", ".join(f"{count} {kind}" for kind, count in sorted(kinds.items())))
    tests = {law: broken[law] for law in LAWS}
    if len(sys.argv) == 2:
        tests["enough was drawn of each kind"] = [kind for kind, count in kinds.items() if count < 10]
    for what, wrong in tests.items():
        passed += not wrong
        failed += bool(wrong)
        if wrong:
            print(f"failed: {what}: {' '.join(map(str, wrong[:20]))}")
    print(f"{passed} passed, {failed} failed")
    sys.exit(1 if failed else 0)


if __name__ == "__main__":
    main()
