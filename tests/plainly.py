"""How routes stand by the definitions, worked out hop by hop and pair by pair, and dumps that have them: for scripts of this folder."""
import collections
import ipaddress
import struct

DOWNSTREAM = ("provider", "mutual")

# A peer is an address and an AS; a path is whether it has a set, and its ASes, neighbour first.
Peer = collections.namedtuple("Peer", "address asn")
Path = collections.namedtuple("Path", "set ases")
# What a route's path comes to: its verdict, the witness that is printed, and the valleys, if the witness is `blocked`.
Standing = collections.namedtuple("Standing", "verdict witness valleys")


# ---- the definitions, for a table: the providers of each AS that attests

def chain_of(path):
    """Origin first, without prepends."""
    ases = path.ases[::-1]
    return [asn for place, asn in enumerate(ases) if place == 0 or asn != ases[place - 1]]


def attests(table, asn, other):
    """True, False, or None where the AS is silent."""
    return other in table[asn] if asn in table else None


class Hops:
    """The hops of a chain, counted from 1: hop i joins the ASes at the places i - 1 and i."""
    def __init__(self, table, chain):
        self.table, self.chain, self.all = table, chain, range(1, len(chain))

    def climb(self, hop):
        return attests(self.table, self.chain[hop - 1], self.chain[hop])

    def descent(self, hop):
        return attests(self.table, self.chain[hop], self.chain[hop - 1])

    def labellings(self, down):
        """Climbs, free hops and descents; those that fit, the longest climb last."""
        count = len(self.all)
        shapes = [(count, 0, 0)]
        if down:
            shapes = [(climbs, free, count - climbs - free) for climbs in range(count + 1) for free in (0, 1) if climbs + free <= count]
        return sorted(shape for shape in shapes if self.fits(*shape))

    def fits(self, climbs, free, descents):
        return all(self.climb(hop) is True for hop in self.all[:climbs]) and all(self.descent(hop) is True for hop in self.all[climbs + free:])

    def valleys(self, down):
        """The ASes of each pair of hops of which the first refuses to climb and the second to descend, and none between refuses either. From
        where a route may come only if it climbed all the way, our own hop behind the last one refuses to descend."""
        found = set()
        for i in self.all:
            for j in range(i + 1, len(self.chain) + (0 if down else 1)):
                ends = j == len(self.chain) or self.descent(j) is False
                between = any(self.climb(hop) is False or self.descent(hop) is False for hop in range(i + 1, j))
                if self.climb(i) is False and ends and not between:
                    to = self.chain[j] if j < len(self.chain) else None
                    found.add((self.chain[i - 1], self.chain[i], self.chain[j - 1], to))
        return found


def labels(labelling):
    return "climbs {} free {} descents {}".format(*labelling)


def judge(table, role, neighbour, path):
    chain, down = chain_of(path), role in DOWNSTREAM
    if not chain:
        return Standing("invalid", "empty", set())
    if path.set:
        return Standing("invalid", "set", set())
    if role != "rs" and chain[-1] != neighbour:
        return Standing("invalid", "neighbour", set())
    hops = Hops(table, chain)
    if fitting := hops.labellings(down):
        return Standing("valid", labels(fitting[-1]), set())
    # Of what the silent might attest nothing helps more than that they attest all.
    helped = Hops({**{asn: set(chain) for asn in chain}, **table}, chain).labellings(down)
    allowed = (True,) if helped else (True, None)
    first = min(hop for hop in hops.all if hops.climb(hop) not in allowed)
    last = f" {max(hop for hop in hops.all if hops.descent(hop) not in allowed)}" if down else ""
    if helped:
        return Standing("unknown", f"unsettled {first}{last} {labels(helped[-1])}", set())
    return Standing("invalid", f"blocked {first}{last}", hops.valleys(down))


# ---- what is written in dumps (RFC 6396, 8050, 4271, 4760, 7911)

def record(stamp, kind, subkind, body):
    return struct.pack(">IHHI", stamp, kind, subkind, len(body)) + body


def peer_table(peers):
    body = struct.pack(">IHH", 1, 0, len(peers))
    for address, asn in peers:
        packed = ipaddress.ip_address(address).packed
        body += struct.pack(">BI", 2 if len(packed) == 4 else 3, 0) + packed + struct.pack(">I", asn)
    return record(0, 13, 1, body)


def prefix_bytes(prefix):
    return bytes([prefix.prefixlen]) + prefix.network_address.packed[:(prefix.prefixlen + 7) // 8]


def identifier(number):
    return b"" if number is None else struct.pack(">I", number)


def sequence(ases):
    return struct.pack(f">BB{len(ases)}I", 2, len(ases), *ases) if ases else b""


def as_path(path):
    """A set stands in the middle, behind one AS alone."""
    middle = (len(path.ases) + 1) // 2
    segments = sequence(path.ases)
    if path.set:
        segments = sequence(path.ases[:middle]) + struct.pack(">BBI", 1, 1, 64999) + sequence(path.ases[middle:])
    return bytes([0x40, 2, len(segments)]) + segments


def announcement(peer, prefix, number, path):
    """A record of a table with one route, of the peer of this place in the peer table."""
    attributes = as_path(path)
    entry = struct.pack(">HI", peer, 0) + identifier(number) + struct.pack(">H", len(attributes)) + attributes
    subkind = (2 if prefix.version == 4 else 4) + (0 if number is None else 6)
    return record(0, 13, subkind, struct.pack(">I", 0) + prefix_bytes(prefix) + struct.pack(">H", 1) + entry)


def session(peer):
    packed = ipaddress.ip_address(peer.address).packed
    return struct.pack(">IIHH", peer.asn, 64999, 0, 1 if len(packed) == 4 else 2) + packed + bytes(len(packed))


def message(stamp, peer, number, withdrawn, attributes, announced):
    inner = struct.pack(">H", len(withdrawn)) + withdrawn + struct.pack(">H", len(attributes)) + attributes + announced
    bgp = b"\xff" * 16 + struct.pack(">HB", 19 + len(inner), 2) + inner
    return record(stamp, 16, 4 if number is None else 9, session(peer) + bgp)


def withdrawal(stamp, peer, prefix, number):
    gone = identifier(number) + prefix_bytes(prefix)
    if prefix.version == 4:
        return message(stamp, peer, number, gone, b"", b"")
    return message(stamp, peer, number, b"", struct.pack(">BBBHB", 0x80, 15, 3 + len(gone), 2, 1) + gone, b"")


def session_end(stamp, peer):
    return record(stamp, 16, 5, session(peer) + struct.pack(">HH", 6, 1))


# ---- what is wanted

class Analysis:
    """What there is, by key: the peer's place among the peers, a prefix, and a path identifier or none."""
    def __init__(self, peers):
        self.peers, self.table, self.roles, self.default = peers, {}, {}, "provider"
        self.routes, self.marks, self.judged, self.drawn = {}, {}, {}, []

    def role_of(self, asn):
        return self.roles.get(asn, self.default)

    def place_of(self, key):
        """Where a key stands: no path identifier before each, and IPv4 before IPv6."""
        peer, prefix, number = key
        asn, address = self.peers[peer].asn, ipaddress.ip_address(self.peers[peer].address)
        return address.version, address, asn, prefix.version, prefix, -1 if number is None else number

    def text_of(self, key):
        peer, prefix, number = key
        address, asn = self.peers[peer]
        path = "" if number is None else f" path {number}"
        return f"{ipaddress.ip_address(address).exploded} {asn} {prefix.exploded}{path}"

    def standing(self, key):
        """By all that attests and by the roles as they are now; who changes these forgets what was judged."""
        asn = self.peers[key[0]].asn
        case = asn, self.routes[key]
        if case not in self.judged:
            self.judged[case] = judge(self.table, self.role_of(asn), asn, self.routes[key])
            self.drawn.append(self.judged[case])
        return self.judged[case]

    def details(self, verdict=None):
        lines = []
        for key in sorted(self.routes, key=self.place_of):
            stands, path = self.standing(key), self.routes[key]
            ases = "".join(f" {asn}" for asn in chain_of(path)[::-1])
            if verdict in (None, stands.verdict):
                lines.append(f"{self.text_of(key)} {stands.verdict} {stands.witness} path{' set' if path.set else ''}{ases}")
        return lines

    def suspects(self):
        routes, pairs = collections.defaultdict(set), collections.defaultdict(set)
        for key, path in self.routes.items():
            for valley in self.standing(key).valleys:
                routes[valley].add(key)
                pairs[valley].add((self.peers[key[0]].asn, path.set, tuple(chain_of(path))))
        lines = []
        for valley in sorted(routes, key=lambda valley: (*valley[:3], valley[3] is None, valley[3] or 0)):
            ases = " ".join("here" if asn is None else str(asn) for asn in valley)
            lines.append(f"{ases} routes {len(routes[valley])} paths {len(pairs[valley])}")
        return lines

    def summed(self, address, asn, keys):
        verdicts = [self.standing(key).verdict for key in keys]
        counts = "".join(f" {verdict} {verdicts.count(verdict)}" for verdict in ("valid", "unknown", "invalid"))
        return f"{address} {asn} {self.role_of(asn)} {'own' if asn in self.roles else 'default'} routes {len(keys)}{counts}"

    def sessions(self):
        """What `peers` lists: the peers that have routes, and the ASes that have a role of their own and none."""
        routes = collections.defaultdict(list)
        for key in sorted(self.routes, key=self.place_of):
            routes[self.peers[key[0]]].append(key)
        idle = self.roles.keys() - {asn for _, asn in routes}
        return ([self.summed(ipaddress.ip_address(address).exploded, asn, keys) for (address, asn), keys in routes.items()]
                + [self.summed("-", asn, []) for asn in sorted(idle)])

    def changes(self):
        now = {key: self.standing(key).verdict for key in self.routes}
        before, self.marks = self.marks, now
        differ = [key for key in before.keys() | now.keys() if before.get(key) != now.get(key)]
        return [f"{self.text_of(key)} {before.get(key, 'none')} {now.get(key, 'none')}" for key in sorted(differ, key=self.place_of)]
