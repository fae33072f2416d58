"""The sections of the page, each of a run as `text` reads it."""
from __future__ import annotations

import datetime
from typing import List, Optional, Sequence

from aspaview import Detail, Suspect

from . import charts
from .markup import Markup, join, tag
from .text import REFUSALS_KEPT, VERDICTS, Evidence, Run, Step

# What each witness of an invalid route says; docs/guide.md, 6.
FAULTS = {
    "blocked": "a hop is refused: a leak, a forged path, or a wrong attestation",
    "set": "the path has an AS_SET; no leak is shown",
    "neighbour": "the path doesn't begin with the peer's AS; no leak is shown",
    "empty": "the path is empty, as over iBGP; no leak is shown",
}
IN_GRAPH = 30
OPENED = 3
AT_ONCE = 20


def counted(number: int, word: str) -> str:
    """A number with its word."""
    return f"{number:,} {word}{'' if number == 1 else 's'}"


def section(name: str, title: str, *children: Markup, class_: Optional[str] = None) -> Markup:
    """A section with a title."""
    return tag("section", tag("h2", title), *children, id=name, class_=class_)


def table(heads: Sequence[str], numbers: Sequence[int], rows: Sequence[Sequence[Markup]]) -> Markup:
    """A table; columns of numbers stand to the right."""
    kinds = ["number" if at in numbers else None for at in range(len(heads))]
    head = tag("tr", *(tag("th", text, class_=kind, scope="col") for text, kind in zip(heads, kinds)))
    body = [tag("tr", *(tag("td", cell, class_=kind) for cell, kind in zip(row, kinds))) for row in rows]
    return tag("div", tag("table", tag("thead", head), tag("tbody", *body)), class_="wide", tabindex=0)


# ---- the run as a whole

def tiles(run: Run) -> Markup:
    """The numbers of the summary."""
    summary = run.summary
    assert summary is not None
    shown = [("routes", summary.routes, None), *((verdict, getattr(summary, verdict), verdict) for verdict in VERDICTS)]
    shown += [("suspects", len(run.suspects), None), ("ASes attest", summary.customers, None), ("refused", summary.refused, None)]
    return tag("div", *(tag("div", tag("b", f"{value:,}", class_=kind), tag("span", name), class_="tile") for name, value, kind in shown),
               class_="tiles")


def warnings(run: Run) -> Markup:
    """What may make the numbers wrong: refusals, no attestation, no route."""
    summary = run.summary
    assert summary is not None
    notes: List[Markup] = []
    if summary.customers == 0:
        notes.append(tag("p", "Nobody attests anything: the file of attestations was empty, or wasn't loaded."))
    if summary.routes == 0:
        notes.append(tag("p", "There is no route: a dump was empty, or wasn't taken."))
    if run.refusals:
        more = summary.refused - len(run.refusals)
        notes.append(tag("p", f"{counted(summary.refused, 'line')} of the text tell{'s' if summary.refused == 1 else ''} a refusal. "
                         "The guide's chapter 16 says what each cause means."))
        notes.append(tag("pre", "\n".join(run.refusals) + (f"\n.. and {more:,} more" if len(run.refusals) == REFUSALS_KEPT and more > 0 else "")))
    return section("warnings", "To be looked at first", *notes, class_="warning") if notes else Markup("")


def faults(run: Run) -> Markup:
    """The invalid routes by the first word of their witness."""
    assert run.summary is not None
    if not run.faults:
        return section("faults", "Invalid routes", tag("p", "No route is invalid."))
    rows = [[tag("span", word), tag("span", f"{count:,}"), tag("span", FAULTS.get(word, ""))] for word, count in run.faults.most_common()]
    return section("faults", "Invalid routes", tag("p", "Invalid is not yet a leak. Only blocked routes have a suspect."),
                   table(("Witness", "Routes", "What it says"), (1,), rows))


# ---- sessions

def bar(counts: Sequence[int]) -> Markup:
    """The verdicts of a session side by side."""
    whole = sum(counts)
    parts = [tag("i", class_=verdict, style=f"width:{100 * count / whole:.2f}%") for verdict, count in zip(VERDICTS, counts) if count]
    return tag("div", *parts, class_="bar", aria_hidden="true")


def sessions(run: Run) -> Markup:
    """Counts by peer, those with the most invalid routes first."""
    rows = []
    order = sorted(run.sessions.items(), key=lambda item: (-item[1]["invalid"], item[0][1], str(item[0][0])))
    for (address, asn), found in order:
        counts = [found[verdict] for verdict in VERDICTS]
        peer = tag("div", f"AS{asn}", tag("div", str(address), class_="address"), class_="peer")
        # (the invalid ones first: on a narrow screen the last columns may be out of sight)
        numbers = [tag("span", f"{found[verdict]:,}", class_=verdict if found[verdict] else "soft") for verdict in reversed(VERDICTS)]
        rows.append([peer, *numbers, tag("span", f"{sum(counts):,}"), bar(counts)])
    if not rows:
        return section("sessions", "Sessions", tag("p", "No session has a route."))
    return section("sessions", "Sessions", table(("Peer", "Invalid", "Unknown", "Valid", "Routes", ""), (1, 2, 3, 4), rows))


# ---- suspects

def who(found: Suspect) -> str:
    """The AS that leaked, or those of which one did."""
    return f"AS{found.first}" if found.first == found.last else f"AS{found.first} to AS{found.last}"


def reasons(found: Suspect) -> Markup:
    """What the suspicion rests on, in words."""
    source, first, last, target = found.from_as, found.first, found.last, found.to_as
    one = f"AS{source} attests its providers, and AS{first} isn't among them: so AS{first} hasn't these routes from a customer. "
    two = (f"AS{last} passed them on to us, to whom in its role it may send only what its customers sent. " if target is None else
           f"AS{last} passed them on to AS{target}, which attests its providers, and AS{last} isn't among them. ")
    three = "" if first == last else f"Which AS from AS{first} to AS{last} leaked them isn't known: those that attest nothing could tell. "
    other = f"AS{last} has another role" if target is None else f"that of AS{target} is"
    four = f"If the attestation of AS{source} is wrong or out of date, or {other}, this may be no leak."
    return tag("p", one + two + three + four, class_="soft")


def path(detail: Detail, found: Suspect) -> Markup:
    """The path as we see it, neighbour first; the ASes of which one leaked stand out."""
    hops = list(detail.path)
    ends = [at for at in range(1, len(hops)) if hops[at] == found.from_as and hops[at - 1] == found.first]
    begins = [at for at in range(len(hops))
              if hops[at] == found.last and (at == 0 if found.to_as is None else hops[at - 1: at] == [found.to_as])]
    marked = min((range(a, b) for a in begins for b in ends if a < b), key=len, default=range(0))
    # (an arrow stays on the line of the AS behind it)
    cells = [tag("span", tag("i", "\u2190 "), tag("b" if at in marked else "span", asn)) for at, asn in enumerate(hops)]
    return tag("div", tag("span", "us"), *cells, class_="path")


def route(detail: Detail, found: Suspect) -> Markup:
    """A sample route with its path."""
    path_id = "" if detail.path_id is None else f", path {detail.path_id}"
    head = join([tag("span", str(detail.prefix), class_="address"), f"{path_id} by ", tag("span", str(detail.peer), class_="address"),
                 f" AS{detail.peer_as}, {detail.witness}"])
    return tag("div", tag("div", head), path(detail, found), class_="route")


def suspect(found: Suspect, evidence: Evidence, opened: bool) -> Markup:
    """A suspect: who, from whom and to whom, how many, and why."""
    way = f"from AS{found.from_as} to {'us' if found.to_as is None else f'AS{found.to_as}'}"
    counts = f"{counted(found.routes, 'route')}, {counted(found.paths, 'path')}"
    head = tag("summary", tag("b", who(found), class_="invalid"), tag("span", way), tag("span", counts, class_="count"))
    rest = found.routes - len(evidence.samples)
    more = [tag("p", f"{counted(rest, 'other route')} went so.", class_="soft")] if rest > 0 else []
    body = [reasons(found), *(route(detail, found) for detail in evidence.samples), *more]
    return tag("details", head, *body, class_="suspect", open="open" if opened else None)


def suspects(run: Run, limit: int) -> Markup:
    """The suspects with the most routes first."""
    order = sorted(run.suspects, key=lambda found: (-found.routes, -found.paths, found.from_as, found.first, found.last, found.to_as or 0))
    if not order:
        return section("suspects", "Suspects", tag("p", "No route is blocked, so nobody is suspected of a leak."))
    shown = [suspect(found, run.suspects[found], at < OPENED) for at, found in enumerate(order[:limit])]
    if len(shown) > AT_ONCE:
        # (so that a long list doesn't push all that stands below it out of sight)
        others = tag("summary", f"{counted(len(shown) - AT_ONCE, 'other suspect')}, with fewer routes")
        shown[AT_ONCE:] = [tag("details", others, *shown[AT_ONCE:], class_="others")]
    left = []
    if len(order) > limit:
        left = [tag("p", f"{counted(len(order) - limit, 'suspect')} with still fewer routes: only in the program's text.", class_="soft")]
    return section("suspects", "Suspects", tag("p", "Somewhere between the two ends an AS passed on to a provider or a peer what it hadn't "
                   "from a customer, if what attests is right. The number of routes orders them."), *shown, *left)


def graph(run: Run) -> Markup:
    """The graph of the leaking ASes, where Graphviz is there."""
    order = sorted(run.suspects, key=lambda found: -found.routes)[:IN_GRAPH]
    if not order:
        return Markup("")
    drawn = charts.graph(order)
    if drawn is None:
        return section("graph", "Who leaked to whom", tag("p", "There is no graph: Graphviz isn't installed where this page was made. "
                       "The list of suspects has all that it would show.", class_="soft"))
    note = f" It has the {IN_GRAPH} suspects with the most routes." if len(run.suspects) > IN_GRAPH else ""
    words = ("Arrows go as the routes went; a number is that of the routes. A filled box is an AS that leaked, and dashed boxes are ASes of which "
             "one did." + note)
    return section("graph", "Who leaked to whom", tag("p", words, class_="soft"), tag("div", drawn, class_="wide", tabindex=0))


# ---- verdicts over steps

def steps(found: Sequence[Step]) -> Markup:
    """The curves, and their numbers."""
    if len(found) < 2:
        return section("steps", "Verdicts over time", tag("p", "There are no curves: the script has no two summaries, each behind a say line "
                       "with its time or its name.", class_="soft"))
    drawn, by = charts.curves(found)
    rows = [[tag("span", step.words), *(tag("span", f"{getattr(step.summary, verdict):,}") for verdict in VERDICTS)] for step in found]
    numbers = tag("details", tag("summary", "The numbers"), table(("", "Valid", "Unknown", "Invalid"), (1, 2, 3), rows))
    title = "Verdicts over time" if all(step.time for step in found) else "Verdicts by step"
    return section("steps", title, tag("div", drawn, class_="wide", tabindex=0),
                   tag("p", f"Each curve has a scale of its own. Drawn by {by}.", class_="soft"), numbers)


def heading(title: str, source: str, made: datetime.datetime) -> Markup:
    """The title, and of what and when the page was made."""
    return tag("header", tag("h1", title), tag("p", f"{source}, {made:%Y-%m-%d %H:%M} UTC", class_="soft"))
