"""Draws the story of a plan as an SVG: what bin/chart has read stands in a `Story`.

Each state has a column; the steps are the borders between the columns, so that what a step changes
is seen at its border. All lengths are in pixels.
"""

from dataclasses import dataclass, field
from html import escape
from itertools import groupby
from math import ceil, cos, floor, log10, radians, sin

PAD, ROW, TEXT, SMALL, TITLE = 20, 24, 13, 12, 18
PANEL = 170
MARK = 4.5
NICE = (1, 2, 5)

STYLE = """
text { font-family: system-ui, -apple-system, "Segoe UI", "DejaVu Sans", sans-serif; font-size: 13px; fill: #1f2328 }
.title { font-size: 18px; font-weight: 600 } .head { font-weight: 600; paint-order: stroke; stroke: #ffffff; stroke-width: 6px; stroke-linejoin: round }
.small { font-size: 12px } .mute, .mute tspan { fill: #57606a } .end { text-anchor: end } .mid { text-anchor: middle }
.back { fill: #ffffff } .grid { stroke: #e3e7eb } .axis { stroke: #8c959f } .gap { fill: #57606a; fill-opacity: .08 }
.hatch { stroke: #57606a; stroke-opacity: .35; stroke-width: 1.2 }
.value { fill: none; stroke: #1f2328; stroke-width: 2; stroke-linejoin: round; stroke-linecap: round } .band { fill: #1f2328; fill-opacity: .55; stroke: #1f2328; stroke-width: 1; stroke-linejoin: round } .told { fill-opacity: 0 }
.lane { stroke-width: 2 } .mark { stroke-width: 2.4; stroke-linecap: round; fill: none }
.yes .lane, .yes .mark { stroke: #0068a8 } .yes .dot { fill: #0068a8 } .yes .word { fill: #005a92 }
.no .lane, .no .mark { stroke: #c24e00 } .no .dot { fill: #c24e00 } .no .word { fill: #a84300 }
.no .lane { stroke-dasharray: 5 4 } .no .thin { stroke: #c24e00; stroke-width: 1.6 }
@media (prefers-color-scheme: dark) {
text { fill: #e6edf3 } .head { stroke: #0d1117 } .mute, .mute tspan { fill: #a2acb7 } .back { fill: #0d1117 } .grid { stroke: #262c34 }
.axis { stroke: #6e7681 } .gap { fill: #a2acb7; fill-opacity: .1 } .hatch { stroke: #a2acb7 } .value { stroke: #e6edf3 }
.band { fill: #e6edf3; stroke: #e6edf3 }
.yes .lane, .yes .mark { stroke: #58b0ea } .yes .dot { fill: #58b0ea } .yes .word { fill: #6cbcf2 }
.no .lane, .no .mark, .no .thin { stroke: #f0934a } .no .dot { fill: #f0934a } .no .word { fill: #f7a463 }
}
"""


@dataclass
class Lane:
    """A line of the picture: what it is of, whether that is satisfied, and what shows it."""

    group: str
    name: str
    number: str
    satisfied: bool
    said: str
    marks: list  # pairs of a state and whether it holds there; or the numbers of steps
    of_steps: bool = False
    folds: int = 0  # how many lanes it stands for, all satisfied
    bound: str = ""  # the objects that its variables mean, in parentheses
    told: str = ""  # what it is of, in whole, and where that stands
    why: dict = field(default_factory=dict)  # by state, or step, the lines that say why

    def whole(self):
        """Gives the lane's name with the objects that it is of."""
        return ("unnamed" if self.name == "-" else self.name) + self.bound

    def label(self):
        """Gives the same, cut where it is long."""
        name = self.whole()
        return name if len(name) <= 24 else name[:23] + "…"

    def verdict(self):
        """Says what the lane comes to."""
        if self.of_steps:
            return f"violated {self.said}"
        if self.folds:
            return f"all {self.folds} satisfied"
        if self.said == "holds":
            return "satisfied"
        return f"{'satisfied' if self.satisfied else 'violated'}: {self.said}"


@dataclass
class Story:
    """What is told of a plan."""

    task: str
    names: list  # of the files of the domain, the problem and the plan
    verdict: str
    steps: list
    values: list  # of the metric, by state; None where there is none
    cost: str
    lanes: list
    lines: list  # of `explain`
    account: list = field(default_factory=list)  # the lines of pddl3why

    def title(self):
        """Says what the picture is of."""
        return f"{self.task + ', ' if self.task else ''}{self.names[2]}: {self.verdict}"

    def subtitle(self):
        """Says how long the plan is, and what it is worth."""
        count = len(self.steps)
        parts = [f"{count} step{'' if count == 1 else 's'}"]
        parts += [f"cost {self.cost}"] if self.cost else []
        parts += [f"metric {self.values[-1]}"] if self.values[-1] else []
        return ", ".join(parts) + f" ({self.names[0]}, {self.names[1]})"


# ---- pieces of SVG


def number(value):
    """Writes a length."""
    return f"{value:.2f}".rstrip("0").rstrip(".")


def text(x, y, words, kind="", more=""):
    """Makes a text."""
    named = f' class="{kind}"' if kind else ""
    return f'<text x="{number(x)}" y="{number(y)}"{named}{more}>{words}</text>'


def line(x1, y1, x2, y2, kind):
    """Makes a line."""
    return f'<line x1="{number(x1)}" y1="{number(y1)}" x2="{number(x2)}" y2="{number(y2)}" class="{kind}"/>'


def dot(x, y):
    """Marks a state in which something holds."""
    return f'<circle cx="{number(x)}" cy="{number(y)}" r="{MARK + 0.5}" class="dot"/>'


def cross(x, y):
    """Marks a state in which something fails."""
    a, b, c, d = (number(value) for value in (x - MARK, x + MARK, y - MARK, y + MARK))
    return f'<path d="M{a} {c}L{b} {d}M{a} {d}L{b} {c}" class="mark"/>'


def diamond(x, y):
    """Marks a step that violates a preference."""
    r = number(MARK + 1.5)
    return f'<path d="M{number(x)} {number(y)}m0 -{r}l{r} {r}l-{r} {r}l-{r} -{r}z" class="dot"/>'


def width_of(words, size=TEXT):
    """Gives about how wide a text is, and rather more than less."""
    return len(words) * size * 0.56 + 2


def spread(least):
    """Gives the least number of the form 1, 2 or 5 times a power of 10 that is not below one."""
    if least <= 0:
        return 1
    ten = 10 ** floor(log10(least))
    return next(nice * power for power in (ten, ten * 10) for nice in NICE if nice * power >= least * 0.999999)


def thinned(room, apart):
    """Gives how many things of a row one name stands for, where a name needs some room."""
    return int(spread(room / apart)) if apart < room else 1


# ---- the places of all parts


class Plan:
    """Where the parts of the picture stand."""

    def __init__(self, story, most):
        self.story = story
        self.lanes, self.rest = chosen(story.lanes, most)
        states = len(story.values)
        self.cell = min(72.0, max(19.0, 560 / states)) if states <= 70 else 1240 / states
        labels = [lane.label() + " " + lane.number for lane in self.lanes]
        self.values = [None if word is None else float(word) for word in story.values]
        self.ticks = ticks([value for value in self.values if value is not None])
        beside = [width_of(label) for label in labels] + [width_of(word, SMALL) for _, word in self.ticks]
        self.left = PAD + max([64.0] + beside) + 12
        self.right = self.left + self.cell * states
        verdicts = [width_of(lane.verdict(), SMALL) for lane in self.lanes]
        needed = [self.right + max([60.0, width_of(story.values[-1] or "", TEXT + 1)] + verdicts) + 34]
        needed += [PAD + width_of(story.title(), TITLE) + PAD, PAD + width_of(story.subtitle()) + PAD]
        self.width = ceil(max(needed))

    def border(self, step):
        """Gives where a step stands, counted from 1."""
        return self.left + self.cell * step

    def middle(self, state):
        """Gives where the middle of a state is."""
        return self.left + self.cell * (state + 0.5)


def chosen(lanes, most):
    """Gives the lanes that are drawn, what is violated first, in their order; and the others."""
    ranked = sorted(range(len(lanes)), key=lambda at: (lanes[at].satisfied, at))
    kept = set(ranked[:most])
    return [lane for at, lane in enumerate(lanes) if at in kept], [lane for at, lane in enumerate(lanes) if at not in kept]


def folded(lanes):
    """Gives the lanes where those of a name that are satisfied are one, if they are four or more."""
    alike = {}
    for lane in lanes:
        if lane.satisfied:
            alike.setdefault((lane.group, lane.name), []).append(lane)
    made = []
    for lane in lanes:
        same = alike.get((lane.group, lane.name), []) if lane.satisfied else []
        if len(same) < 4:
            made.append(lane)
        elif lane is same[0]:
            made.append(Lane(lane.group, lane.name, f"{lane.number} .. {same[-1].number}", True, "holds", [], False, len(same)))
    return made


# ---- the metric


def ticks(values):
    """Gives the round values beside which the metric is drawn, each with its words."""
    if not values:
        return [(0.0, ""), (1.0, "")]
    low, high = min(values), max(values)
    if low == high:
        low, high = low - 2, high + 2
    apart = spread((high - low) / 4)
    places = max(0, -floor(log10(apart)))
    first, last = floor(low / apart), ceil(high / apart)
    return [(at * apart, f"{at * apart:.{places}f}") for at in range(first, last + 1)]


def groups(plan, values, least):
    """Gives the states, those that share so many pixels together: the first one, the one behind the
    last, and the values that they have."""
    many = max(1, ceil(least / plan.cell))
    for start in range(0, len(values), many):
        end = min(start + many, len(values))
        yield start, end, [value for value in values[start:end] if value is not None]


def stretches(plan, values):
    """Gives the longest stretches of groups that all have a value, or all have none."""
    return [list(group) for _, group in groupby(groups(plan, values, 1), lambda group: bool(group[2]))]


def curve(plan, stretch, height):
    """Gives the path of the values of a stretch; where a pixel has many, the band of the least and the greatest."""
    if all(end == start + 1 for start, end, _ in stretch):
        path = [f"L{number(plan.border(start))} {number(height(part[0]))}H{number(plan.border(end))}" for start, end, part in stretch]
        return f'<path d="M{"".join(path)[1:]}" class="value"/>'
    there = [f"L{number(plan.border(start))} {number(height(max(part)))}H{number(plan.border(end))}" for start, end, part in stretch]
    back = [f"L{number(plan.border(end))} {number(height(min(part)))}H{number(plan.border(start))}" for start, end, part in reversed(stretch)]
    return f'<path d="M{"".join(there + back)[1:]}z" class="band"/>'


def told(plan, top):
    """Tells of each state, where the mouse rests, the whole step before it and the value."""
    steps, values = plan.story.steps, plan.story.values
    for start, end, _ in groups(plan, plan.values, 3):
        lines = []
        for state in range(start, min(end, start + 8)):
            step = f", behind step {state} {steps[state - 1]}" if state else ", the first one"
            lines.append(f"state {state}{step}: " + (f"metric {values[state]}" if values[state] is not None else "no value"))
        lines += [f"and {end - start - 8} more"] if end - start > 8 else []
        box = f'x="{number(plan.border(start))}" y="{top}" width="{number(plan.cell * (end - start))}" height="{PANEL}"'
        yield f'<rect {box} class="told"><title>{escape(chr(10).join(lines))}</title></rect>'


def value_labels(plan, values, height):
    """Writes the values over their states where there is room; the last one stands beside its state."""
    said, last = plan.story.values, len(values) - 1
    widest = max([width_of(word, SMALL) for word in said if word], default=0)
    for state, word in enumerate(said):
        if word is None:
            continue
        if state == last:
            yield text(plan.right + 8, height(values[state]) + 4.5, escape(word), "head")
        elif widest + 4 <= plan.cell and (state == 0 or said[state - 1] != word):
            yield text(plan.middle(state), height(values[state]) - 6, escape(word), "small mid")


def metric_panel(plan, top):
    """Draws the values of the metric."""
    values, (low, _), (high, _) = plan.values, plan.ticks[0], plan.ticks[-1]

    def height(value):
        return top + 8 + (PANEL - 16) * (high - value) / (high - low)

    yield text(PAD, top - 14, "Metric at first and after each step", "head")
    for value, word in plan.ticks:
        yield line(plan.left, height(value), plan.right, height(value), "grid")
        yield text(plan.left - 8, height(value) + 4, word, "small mute end")
    for stretch in stretches(plan, values):
        left, right = plan.border(stretch[0][0]), plan.border(stretch[-1][1])
        if stretch[0][2]:
            yield curve(plan, stretch, height)
        else:
            box = f'x="{number(left)}" y="{top}" width="{number(right - left)}" height="{PANEL}"'
            yield f'<rect {box} class="gap"/><rect {box} fill="url(#gap)"/>'
    yield from value_labels(plan, values, height)
    yield line(plan.left, top + PANEL, plan.right, top + PANEL, "axis")
    yield from told(plan, top)


def state_numbers(plan, y):
    """Writes the numbers of the states, as many as there is room for."""
    last = len(plan.story.values) - 1
    every = thinned(width_of(str(last), SMALL) + 8, plan.cell)
    yield text(plan.left - 14, y, "state", "small mute end")
    for state in range(0, last + 1, every):
        yield text(plan.middle(state), y, str(state), "small mute mid")


# ---- the lanes


def staggered(places):
    """Gives how far above or below its lane each mark is drawn, so that none hides another; places rise."""
    runs = []
    for at, place in enumerate(places):
        if at and place - places[at - 1] < 10:
            runs[-1] += 1
        else:
            runs.append(1)
    return [(at - (run - 1) / 2) * 7.5 for run in runs for at in range(run)]


def because(lane, at, said):
    """Says what is marked at a state or step, and why, where that is known."""
    return escape("\n".join([said, *lane.why.get(at, [])]))


def state_marks(plan, lane, y):
    """Marks the states that show whether a lane is satisfied."""
    marks = sorted(lane.marks)
    places = [plan.middle(state) for state, _ in marks]
    for (state, holds), place, shift in zip(marks, places, staggered(places)):
        drawn = dot(place, y + shift) if holds else cross(place, y + shift)
        said = f"{'holds' if holds else 'fails'} in state {state}"
        yield f"<g><title>{because(lane, state, said)}</title>{drawn}</g>"


def step_marks(plan, lane, y):
    """Marks the steps that violate a preference; where they stand close they become thin lines."""
    if plan.cell >= 12:
        for step in sorted(set(lane.marks)):
            drawn = diamond(plan.border(step), y)
            yield f"<g><title>{because(lane, step, f'violated by step {step}')}</title>{drawn}</g>" if step in lane.why else drawn
    else:
        places = sorted({number(round(plan.border(step) * 2) / 2) for step in lane.marks}, key=float)
        yield f'<path d="{"".join(f"M{place} {number(y - 7)}v14" for place in places)}" class="thin"/>'


def lane_row(plan, lane, y):
    """Draws a lane."""
    suffix = f' <tspan class="mute">{escape(lane.number)}</tspan>' if lane.number else ""
    full = f"{lane.name}{lane.bound} {lane.number}: {lane.verdict()}".replace(" :", ":") + (f"\n{lane.told}" if lane.told else "")
    yield f'<g class="{"yes" if lane.satisfied else "no"}"><title>{escape(full)}</title>'
    yield text(plan.left - 12, y + 4.5, escape(lane.label()) + suffix, "end")
    yield line(plan.left, y, plan.right, y, "lane" if not lane.of_steps else "grid")
    yield from step_marks(plan, lane, y) if lane.of_steps else state_marks(plan, lane, y)
    yield text(plan.right + 12, y + 4, escape(lane.verdict()), "small word")
    yield "</g>"


def left_out(rest):
    """Says how many lanes are not drawn."""
    violated = sum(not lane.satisfied for lane in rest)
    return f"{len(rest)} more are not drawn: {violated} violated, {len(rest) - violated} satisfied"


def lane_panel(plan, top):
    """Gives the parts of the lanes, and where they end."""
    parts, y, group = [], top, None
    for lane in plan.lanes:
        if lane.group != group:
            y += ROW * 0.5 if group else 0
            group = lane.group
            parts.append(text(PAD, y + 4.5, group, "head"))
            y += ROW
        parts += lane_row(plan, lane, y)
        y += ROW
    if plan.rest:
        parts.append(text(PAD, y + 4.5, left_out(plan.rest), "small mute"))
        y += ROW
    return parts, y


# ---- steps and legend


def step_names(plan, y):
    """Gives the numbers and names of the steps, as many as there is room for, and how deep they hang."""
    slope = 40 if plan.cell >= 34 else 62
    room = 16 / sin(radians(slope))
    every = 1 if room <= plan.cell else thinned(3 * room, plan.cell)
    parts, depth, reach = [], 0.0, plan.width
    if plan.story.steps:
        parts.append(text(plan.left - 14, y + 10, "step", "small mute end"))
    for at in range(every, len(plan.story.steps) + 1, every):
        whole = f"{at} {plan.story.steps[at - 1]}"
        words = whole if len(whole) <= 44 else whole[:43] + "…"
        x = plan.border(at)
        parts.append(line(x, y - 10, x, y - 4, "axis"))
        title = f"<title>{escape(whole)}</title>" if words != whole else ""
        parts.append(text(0, 0, escape(words) + title, "small", f' transform="translate({number(x - 3)} {number(y + 8)}) rotate({slope})"'))
        depth = max(depth, width_of(words, SMALL) * sin(radians(slope)))
        reach = max(reach, x + width_of(words, SMALL) * cos(radians(slope)) + PAD)
    return parts, y + depth + 20, ceil(reach)


def legend_items(plan):
    """Gives what the signs mean, of those that stand in the picture: how each is drawn, and its words."""
    lanes = [lane for lane in plan.lanes if not lane.of_steps]
    marks = {holds for lane in lanes for _, holds in lane.marks}
    samples = {
        "satisfied": (any(lane.satisfied for lane in lanes), "yes", line(0, 0, 24, 0, "lane")),
        "violated": (not all(lane.satisfied for lane in lanes), "no", line(0, 0, 24, 0, "lane")),
        "holds in this state": (True in marks, "yes", dot(12, 0)),
        "fails in this state": (False in marks, "no", cross(12, 0)),
        "violated by this step": (any(lane.of_steps for lane in plan.lanes), "no", diamond(12, 0)),
        "no value: no valid plan ends here": (None in plan.story.values, "", '<rect y="-7" width="24" height="14" class="gap"/><rect y="-7" width="24" height="14" fill="url(#gap)"/>'),
    }
    return [(words, kind, drawn) for words, (there, kind, drawn) in samples.items() if there]


def legend(plan, y):
    """Draws the legend, in as many lines as it needs."""
    x = PAD
    parts = []
    for words, kind, drawn in legend_items(plan):
        wide = 32 + width_of(words, SMALL) + 18
        if x + wide > plan.width and x > PAD:
            x, y = PAD, y + ROW - 4
        parts.append(f'<g class="{kind}" transform="translate({number(x)} {number(y)})">{drawn}</g>')
        parts.append(text(x + 32, y + 4, words, "small"))
        x += wide
    return parts, y + ROW


# ---- the whole


def picture(story, most=60):
    """Gives the picture as a text, with up to so many lanes."""
    plan = Plan(story, most)
    body = [text(PAD, 34, escape(story.title()), "title"), text(PAD, 56, escape(story.subtitle()), "mute")]
    parts, y = legend(plan, 82)
    body += parts
    top = y + 30
    parts, below = lane_panel(plan, top + PANEL + 56)
    named, bottom, wide = step_names(plan, below + 6)
    for step in range(0, len(story.values) + 1) if plan.cell >= 12 else ():
        body.append(line(plan.border(step), top, plan.border(step), below - 8, "grid"))
    body += metric_panel(plan, top)
    body += state_numbers(plan, top + PANEL + 22)
    body += parts + named
    size = f'width="{wide}" height="{ceil(bottom)}" viewBox="0 0 {wide} {ceil(bottom)}"'
    head = [
        f'<svg xmlns="http://www.w3.org/2000/svg" {size} role="img" aria-labelledby="title told">',
        f'<title id="title">{escape(story.title())}</title>',
        f'<desc id="told">{escape(story.subtitle())}</desc>',
        f"<style>{STYLE}</style>",
        '<defs><pattern id="gap" width="6" height="6" patternUnits="userSpaceOnUse" patternTransform="rotate(45)"><line y2="6" class="hatch"/></pattern></defs>',
        f'<rect width="{wide}" height="{ceil(bottom)}" class="back"/>',
    ]
    return "\n".join(head + body) + "\n</svg>\n"
