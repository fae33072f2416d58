"""What people ask of an analysis, and what attests, worked out by plain lists and sets from the definitions: for asked.py."""
import collections

from plainly import DOWNSTREAM, Analysis, Hops, Path, attests, chain_of, judge

# From the best one on.
VERDICTS = ["valid", "unknown", "invalid"]

# The roles of those whose routes may be sent upwards.
SENT = ("customer", "mutual")

# The most bytes of a line.
LONGEST = 4096

# What an AS attests of another one, by what `attests` answers.
WORDS = {True: "provides", False: "refuses", None: "silent"}

# What one customer attests up to an end, or for ever: its providers ascend, each once.
Attestation = collections.namedtuple("Attestation", "customer end providers")


def listed(providers):
    return " ".join(map(str, sorted(providers))) or "0"


class Parts:
    """All that attests: sources in the order in which they came, each a set of attestations, and what a SLURM file and the hand filter and assert."""
    def __init__(self):
        self.moment, self.sources = 0, {}
        self.asserted, self.filtered = {"slurm": {}, "hand": {}}, {"slurm": set(), "hand": set()}

    def alive(self, held):
        return held.end is None or held.end > self.moment

    def row(self, asn):
        """All that goes into the row, less 0; none where nothing goes in."""
        rows = [held.providers for source in self.sources.values() for held in source if held.customer == asn and self.alive(held)]
        if any(asn in filtered for filtered in self.filtered.values()):
            rows = []
        rows += [asserted[asn] for asserted in self.asserted.values() if asn in asserted]
        return set().union(*rows) - {0} if rows else None

    def table(self):
        customers = {held.customer for source in self.sources.values() for held in source}.union(*self.asserted.values())
        rows = {asn: self.row(asn) for asn in customers}
        return {asn: row for asn, row in rows.items() if row is not None}

    def told(self, asn):
        """Where the row of an AS comes from."""
        lines = []
        for name, source in self.sources.items():
            of_it = [held for held in source if held.customer == asn]
            for held in sorted(of_it, key=lambda held: (held.end is not None, held.end or 0, held.providers)):
                until = "" if held.end is None else f" until {held.end}"
                lines.append(f"source {name}{until} {listed(held.providers)}{'' if self.alive(held) else ' ended'}")
        lines += [f"{by} {listed(asserted[asn])}" for by, asserted in self.asserted.items() if asn in asserted]
        lines += [f"filtered {by}" for by, filtered in self.filtered.items() if asn in filtered]
        row = self.row(asn)
        return lines + [f"row {'none' if row is None else listed(row)}"]


class Asked(Analysis):
    """An analysis whose table is that of its parts."""
    def __init__(self, peers):
        super().__init__(peers)
        self.parts = Parts()

    def settle(self):
        """Behind each change."""
        self.table = self.parts.table()
        self.judged.clear()

    def keys(self):
        return sorted(self.routes, key=self.place_of)

    def role_for(self, key):
        return self.role_of(self.peers[key[0]].asn)

    def report(self):
        return [f"{self.text_of(key)} {self.standing(key).verdict}" for key in self.keys()]

    def summary(self, refused):
        verdicts = [self.standing(key).verdict for key in self.routes]
        counts = "".join(f" {verdict} {verdicts.count(verdict)}" for verdict in VERDICTS)
        return [f"summary routes {len(verdicts)}{counts} customers {len(self.table)} passed 0 refused {refused}"]

    def judged_as(self, role, neighbour, ases):
        return judge(self.table, role, neighbour, Path(False, tuple(ases)))

    def sent(self, role, ases):
        lines = [f"own {self.judged_as(role, ases[0], ases).verdict}"]
        for key in self.keys():
            if self.role_for(key) in SENT:
                path = Path(self.routes[key].set, tuple(ases) + self.routes[key].ases)
                lines.append(f"{self.text_of(key)} {judge(self.table, role, ases[0], path).verdict}")
        return lines

    def explained(self, standing, path):
        """The line of a standing, and of a path without a set its hops."""
        hops = Hops(self.table, chain_of(path))
        lines = [f"{standing.verdict} {standing.witness}"]
        for hop in [] if path.set else hops.all:
            lower, upper = hops.chain[hop - 1:hop + 1]
            lines.append(f"hop {hop} {lower} {upper} climb {WORDS[hops.climb(hop)]} descend {WORDS[hops.descent(hop)]}")
        return lines

    def assertions(self):
        """The table as a script."""
        lines = []
        for customer in sorted(self.table):
            lines.append(f"assert {customer}")
            for provider in sorted(self.table[customer]) or [0]:
                if len(f"{lines[-1]} {provider}") > LONGEST:
                    lines.append(f"assert {customer}")
                lines[-1] += f" {provider}"
        return lines

    def neighbours(self, asn):
        to, back = collections.defaultdict(set), collections.defaultdict(set)
        for key, path in self.routes.items():
            chain = chain_of(path)
            for lower, upper in zip(chain, chain[1:]):
                if lower == asn:
                    to[upper].add(key)
                if upper == asn:
                    back[lower].add(key)
        return [f"{asn} {other} climb {WORDS[attests(self.table, asn, other)]} descend {WORDS[attests(self.table, other, asn)]}"
                f" to {len(to[other])} from {len(back[other])}" for other in sorted(to.keys() | back.keys())]

    def meets(self, key, word, value):
        """Whether a route meets a condition; prefixes are networks, and ASes numbers."""
        (peer, prefix, _), path = key, self.routes[key]
        chain = chain_of(path)
        if word in ("within", "covering"):
            longer, shorter = (prefix, value) if word == "within" else (value, prefix)
            return longer.version == shorter.version and longer.subnet_of(shorter)
        if word == "origin":
            return not path.set and chain[:1] == [value]
        if word == "through":
            return value in chain
        address, asn = self.peers[peer]
        return value == {"verdict": self.standing(key).verdict, "peer": asn, "from": address, "prefix": prefix}[word]

    def those(self, conditions):
        """The rows of `details` of the routes that meet all conditions."""
        rows = zip(self.keys(), self.details())
        return [row for key, row in rows if all(self.meets(key, word, value) for word, value in conditions)]

    def silent(self):
        routes, paths = collections.defaultdict(set), collections.defaultdict(set)
        for key, path in self.routes.items():
            chain = chain_of(path)
            for lower, upper in zip(chain, chain[1:]):
                for asn in (lower, upper) if self.role_for(key) in DOWNSTREAM else (lower,):
                    if self.standing(key).verdict == "unknown" and asn not in self.table:
                        routes[asn].add(key)
                        paths[asn].add((self.peers[key[0]].asn, tuple(chain)))
        return [f"{asn} routes {len(routes[asn])} paths {len(paths[asn])}" for asn in sorted(routes)]
