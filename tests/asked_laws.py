"""Laws that the answers to questions keep, by the program's own text: for asked.py. Each is asked of the last questions of a script."""
import collections
import ipaddress

from answers import LONGEST, VERDICTS
from plainly import DOWNSTREAM


class Told:
    """The answers, by their questions and in order, and the rows of `details`, each as its key, its verdict, whether it has a set, and its path."""
    def __init__(self, text, questions):
        places = [text.index(f"# {number}") for number in range(len(questions))] + [len(text)]
        self.all = [(line, text[place + 1:end]) for line, place, end in zip(questions, places, places[1:])]
        self.by = dict(self.all)
        self.details = [self.detail(row) for row in self.by["details"]]

    @staticmethod
    def detail(row):
        words = row.split()
        key = words[:5] if words[3] == "path" else words[:3]
        path = row.rsplit(" path", 1)[1].split()
        return key, words[len(key)], path[:1] == ["set"], path[1:] if path[:1] == ["set"] else path

    def asked(self, word):
        return [(line.split(), answer) for line, answer in self.all if line.split()[0] == word]


def peers_add_up(told, _):
    rows = [line.split() for line in told.by["peers"]]
    held = collections.Counter((row[0], row[1], row[-1]) for row in map(str.split, told.by["report"]))
    sums = [sum(int(row[place]) for row in rows) for place in (5, 7, 9, 11)]
    return ([int(told.by["summary"][0].split()[place]) for place in (2, 4, 6, 8)] == sums
            and all(int(row[place]) == held[row[0], row[1], row[place - 1]] for row in rows for place in (7, 9, 11)))


def explain_begins_so(told, _):
    pairs = [(one, answer, other, longer) for (one, answer), (other, longer) in zip(told.all, told.all[1:]) if other.startswith("explain ")]
    same = all(one.split()[1:] == other.split()[1:] for one, _, other, _ in pairs)
    return same and all(answer == (longer[:1] if one.startswith("why") else longer[0].split()[:1]) for one, answer, _, longer in pairs)


def sent_is_judged(told, _):
    paths = {" ".join(key): (has_set, path) for key, _, has_set, path in told.details}
    for (_, role, *ases), (own, *rows) in told.asked("sent"):
        first = own.split()[1]
        if told.by[" ".join(["judge", role, ases[0], *ases])] != [first]:
            return False
        for row in rows:
            key, verdict = row.rsplit(" ", 1)
            has_set, path = paths[key]
            due = "invalid" if has_set else told.by[" ".join(["judge", role, ases[0], *ases, *path])][0]
            if verdict != due or VERDICTS.index(verdict) < VERDICTS.index(first):
                return False
    return True


def neighbours_mirror(told, _):
    lines = {line for _, answer in told.asked("neighbours") for line in answer}
    def turned(line):
        asn, other, _, climb, _, descend, _, to, _, back = line.split()
        return f"{other} {asn} climb {descend} descend {climb} to {back} from {to}"
    return all(turned(line) in lines for line in lines)


def routes_meet(told, _):
    def meets(row, word, value):
        (address, asn, prefix, *_), verdict, has_set, path = row
        if word in ("prefix", "within", "covering"):
            one, other = ipaddress.ip_network(prefix), ipaddress.ip_network(value)
            within, covering = (longer.version == shorter.version and longer.prefixlen >= shorter.prefixlen and longer.network_address in shorter
                                for longer, shorter in ((one, other), (other, one)))
            return {"within": within, "covering": covering, "prefix": within and covering}[word]
        return {"verdict": verdict == value, "peer": asn == value, "from": address == value, "through": value in path,
                "origin": not has_set and path[-1:] == [value]}[word]
    for (_, *words), answer in told.asked("routes"):
        conditions = list(zip(words[::2], words[1::2]))
        if answer != [line for line, row in zip(told.by["details"], told.details) if all(meets(row, *condition) for condition in conditions)]:
            return False
    return True


def attests_again(told, performed):
    """The lines are the script of the same table, and each is full where another one of its customer follows; the row is what comes to it."""
    lines, table = told.by["attests"], collections.defaultdict(list)
    for line in lines:
        table[line.split()[1]] += line.split()[2:]
    for line, after in zip(lines, lines[1:]):
        if line.split()[1] == after.split()[1] and len(f"{line} {after.split()[2]}") <= LONGEST:
            return False
    for (_, asn), (*parts, row) in ((words, answer) for words, answer in told.asked("attests") if len(words) == 2):
        filtered, given = any(part.startswith("filtered") for part in parts), []
        for words in map(str.split, parts):
            if words[0] == "source" and words[-1] != "ended" and not filtered:
                given.append(words[4:] if words[2] == "until" else words[2:])
            elif words[0] in ("slurm", "hand"):
                given.append(words[1:])
        union = sorted({int(provider) for providers in given for provider in providers} - {0})
        due = " ".join(map(str, union)) or "0" if given else "none"
        if row != f"row {due}" or due != (" ".join(table[asn]) if asn in table else "none"):
            return False
    return max(map(len, lines), default=0) <= LONGEST and performed([*lines, "attests"]) == (lines, 0)


def silent_as_hops_say(told, _):
    roles = {(row[0], row[1]): row[2] for row in map(str.split, told.by["peers"])}
    paths = {" ".join(key): path for key, _, _, path in told.details}
    routes, pairs = collections.Counter(), collections.defaultdict(set)
    for (_, *words), (first, *hops) in told.asked("explain"):
        key = " ".join(words[:3] + (["path", words[3]] if len(words) == 4 else []))
        if (words[0], words[1]) not in roles or first.split()[0] != "unknown":
            continue
        both = roles[words[0], words[1]] in DOWNSTREAM
        found = {lower for _, _, lower, _, _, climb, _, _ in map(str.split, hops) if climb == "silent"}
        found |= {upper for _, _, _, upper, _, _, _, descend in map(str.split, hops) if descend == "silent" and both}
        for asn in found:
            routes[asn] += 1
            pairs[asn].add((words[1], *paths[key]))
    return told.by["silent"] == [f"{asn} routes {routes[asn]} paths {len(pairs[asn])}" for asn in sorted(routes, key=int)]


LAWS = {
    "`peers` adds up to `summary`, and line by line to `report`": peers_add_up,
    "`explain` begins with the line of `why`, and of `judge`": explain_begins_so,
    "`sent` has the verdicts of `judge`, and no row is better than its first line": sent_is_judged,
    "the line of X at Y in `neighbours` is that of Y at X with both pairs exchanged": neighbours_mirror,
    "`routes` with conditions is what of `details` meets each": routes_meet,
    "the lines of `attests`, performed from the start, give the same": attests_again,
    "`silent` is what the hops of unknown routes show": silent_as_hops_say,
}
