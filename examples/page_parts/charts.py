"""Draws: the graph of the suspects by Graphviz, and verdicts over steps by matplotlib, or by hand where that isn't there. Each is an SVG
without a colour of its own: classes and variables of the page's style give it one."""
from __future__ import annotations

import io
import re
import shutil
import subprocess
from typing import Dict, List, Optional, Sequence, Tuple

from aspaview import Suspect

from .markup import Markup, join, tag, trusted
from .text import VERDICTS, Step

# Stand for the page's colours in what matplotlib writes, which knows no variables.
INKS = {"#010203": "var(--ink)", "#010204": "var(--line)", "#010205": "var(--valid)", "#010206": "var(--unknown)", "#010207": "var(--invalid)"}
SERIES = dict(zip(VERDICTS, ("#010205", "#010206", "#010207")))
WIDTH, PANEL, LEFT, GAP = 440, 84, 66, 26


def svg_alone(text: str) -> str:
    """What stands between <svg and </svg>, without a header, a document type, comments, metadata and styles."""
    text = text[text.index("<svg"): text.rindex("</svg>") + len("</svg>")]
    return re.sub(r"<!--.*?-->|<metadata>.*?</metadata>|<style[^>]*>.*?</style>", "", text, flags=re.S)


# ---- the graph

def graph_text(suspects: Sequence[Suspect]) -> str:
    """The suspects in Graphviz's language: an arrow for each way of routes, dashed between ASes of which one leaked and no more is known."""
    arrows: Dict[Tuple[str, str, str], int] = {}
    kinds: Dict[str, str] = {}
    for suspect in suspects:
        first, last = suspect.first, suspect.last
        end = "us" if suspect.to_as is None else str(suspect.to_as)
        ways = [(str(suspect.from_as), str(first), "passed"), (str(last), end, "leaked")]
        if first != last:
            ways.append((str(first), str(last), "between"))
        for way in ways:
            arrows[way] = arrows.get(way, 0) + suspect.routes
        for asn in (first, last):
            if first == last or str(asn) not in kinds:
                kinds[str(asn)] = "leaker" if first == last else "maybe"
    names = sorted({name for way in arrows for name in way[:2]}, key=lambda name: (name == "us", name.zfill(10)))
    lines = [f'"{name}" [class="{kinds.get(name, "us" if name == "us" else "other")}"];' for name in names]
    lines += [
        f'"{a}" -> "{b}" [class="{kind}" label=" {count}"{" style=dashed" if kind == "between" else ""}];'
        for (a, b, kind), count in arrows.items()
    ]
    # (the font's size is in points, and the page shows a point as a pixel, so that it is that of the text)
    start = 'digraph { bgcolor=transparent; rankdir=LR; nodesep=0.15; ranksep=0.35; node [shape=box style="rounded,filled" fontname="sans-serif"'
    return start + " fontsize=14 margin=0.12 height=0.35]; edge [fontname=\"sans-serif\" fontsize=12 arrowsize=0.7];\n" + "\n".join(lines) + "\n}\n"


def graph(suspects: Sequence[Suspect]) -> Optional[Markup]:
    """The graph as SVG, or None where there is no Graphviz."""
    dot = shutil.which("dot")
    if dot is None:
        return None
    try:
        made = subprocess.run([dot, "-Tsvg"], input=graph_text(suspects), capture_output=True, text=True, timeout=60, check=True)
    except (OSError, subprocess.SubprocessError):
        return None
    text = re.sub(r'(<svg width="\d+)pt(" height="\d+)pt"', r'\1\2"', svg_alone(made.stdout), count=1)
    return trusted(text.replace("<svg ", '<svg class="graph" role="img" aria-label="Graph of the suspects" ', 1))


# ---- verdicts over steps

def label_of(step: Step) -> str:
    """What stands below a step: its time as short as may be, or its words."""
    if step.time:
        return f"{step.time:%d %b %H:%M}"
    return step.words if len(step.words) <= 24 else step.words[:22] + " .."


def places_of(steps: Sequence[Step]) -> List[float]:
    """Where each step stands between 0 and 1: by its time where all have one and they ascend, else evenly."""
    times = [step.time.timestamp() for step in steps if step.time]
    if len(times) == len(steps) and times[0] < times[-1] and times == sorted(times):
        return [(time - times[0]) / (times[-1] - times[0]) for time in times]
    return [at / (len(steps) - 1) for at in range(len(steps))]


def shown_labels(steps: Sequence[Step]) -> List[int]:
    """The steps below which a label stands: all of a few, else the first, one in the middle and the last."""
    last = len(steps) - 1
    return list(range(len(steps))) if last < 3 else [0, last // 2, last]


def by_matplotlib(steps: Sequence[Step]) -> Optional[Markup]:
    """Three panels, one for each verdict, or None where there is no matplotlib."""
    try:
        import matplotlib  # type: ignore
        matplotlib.use("svg")
        from matplotlib import pyplot
    except Exception:  # a broken installation is none
        return None
    settings = {"svg.fonttype": "none", "svg.hashsalt": "page.py", "font.family": "sans-serif", "font.size": 9.5}
    with matplotlib.rc_context(settings):
        figure, panels = pyplot.subplots(3, 1, sharex=True, figsize=(4.6, 4.0))
        places, shown = places_of(steps), shown_labels(steps)
        for panel, verdict in zip(panels, VERDICTS):
            values = [getattr(step.summary, verdict) for step in steps]
            panel.plot(places, values, color=SERIES[verdict], linewidth=2, marker="o", markersize=3.5 if len(steps) < 60 else 0)
            panel.set_title(verdict, loc="left", fontsize=10, color=SERIES[verdict])
            panel.yaxis.get_major_locator().set_params(integer=True, nbins=4)
            panel.ticklabel_format(axis="y", style="plain", useOffset=False)
            panel.tick_params(color="#010204", labelcolor="#010203", length=3)
            for spine in panel.spines.values():
                spine.set_color("#010204")
            for side in ("top", "right"):
                panel.spines[side].set_visible(False)
            panel.grid(axis="y", color="#010204", linewidth=0.6)
        # (marks as long as the labels that replace them: between two dollar signs matplotlib would read a formula)
        marks = {at: f"@{at}@".ljust(len(label_of(steps[at])), "n") for at in shown}
        panels[-1].set_xticks([places[at] for at in shown])
        panels[-1].set_xticklabels(list(marks.values()))
        figure.tight_layout()
        written = io.StringIO()
        figure.savefig(written, format="svg", transparent=True, metadata={"Date": None, "Creator": None})
        pyplot.close(figure)
    text = svg_alone(written.getvalue())
    for ink, colour in INKS.items():
        text = text.replace(ink, colour)
    for at, mark in marks.items():
        text = text.replace(f">{mark}<", f">{join([label_of(steps[at])])}<")
    return trusted(text.replace("<svg ", '<svg class="curves" role="img" aria-label="Verdicts over the steps" ', 1))


def panel_by_hand(steps: Sequence[Step], places: Sequence[float], verdict: str, top: int) -> Markup:
    """One verdict's panel: its curve between the least and the largest number."""
    values = [getattr(step.summary, verdict) for step in steps]
    low, high = min(values), max(values)
    span = max(high - low, 1)
    points = [(LEFT + place * (WIDTH - LEFT - 20), top + PANEL - (value - low) / span * PANEL) for place, value in zip(places, values)]
    line = " ".join(f"{x:.1f},{y:.1f}" for x, y in points)
    ticks = [(high, top)] + ([(low, top + PANEL)] if low != high else [])
    return join(
        [
            tag("text", verdict, x=LEFT, y=top - 8, class_=f"series {verdict}"),
            *(tag("line", x1=LEFT, x2=WIDTH - 20, y1=y, y2=y, class_="rule") for y in (top, top + PANEL)),
            *(tag("text", f"{value:,}", x=LEFT - 8, y=(top + PANEL if low == high else y) + 4, text_anchor="end") for value, y in ticks),
            tag("polyline", points=line, class_=f"curve {verdict}"),
            *(tag("circle", cx=f"{x:.1f}", cy=f"{y:.1f}", r=3, class_=f"dot {verdict}") for x, y in points if len(points) < 60),
        ]
    )


def by_hand(steps: Sequence[Step]) -> Markup:
    """The same panels, without a library."""
    places = places_of(steps)
    height = 3 * (PANEL + GAP) + 24
    panels = [panel_by_hand(steps, places, verdict, GAP + at * (PANEL + GAP)) for at, verdict in enumerate(VERDICTS)]
    shown = shown_labels(steps)
    labels = [
        tag("text", label_of(steps[at]), x=f"{LEFT + places[at] * (WIDTH - LEFT - 20):.1f}", y=height - 6,
            text_anchor="start" if at == 0 else "end" if at == len(steps) - 1 else "middle")
        for at in shown
    ]
    return tag("svg", *panels, *labels, xmlns="http://www.w3.org/2000/svg", class_="curves", viewBox=f"0 0 {WIDTH} {height}",
               width=WIDTH, height=height, role="img", aria_label="Verdicts over the steps")


def curves(steps: Sequence[Step]) -> Tuple[Markup, str]:
    """The drawing, and by what it was made."""
    drawn = by_matplotlib(steps)
    return (drawn, "matplotlib") if drawn is not None else (by_hand(steps), "page.py")
