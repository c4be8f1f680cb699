"""A drawing of a case and of what obs answered, in Graphviz's language."""
import collections
import math

from layout import line_length, node_width
from wording import counted, shown

# colours that people with any kind of colour vision tell apart (by Okabe and Ito), and what can be read on them
COLOURS = [("#56B4E9", "black"), ("#E69F00", "black"), ("#009E73", "black"), ("#F0E442", "black"), ("#CC79A7", "black"),
           ("#0072B2", "white"), ("#D55E00", "black")]
UNSOURCED = ("#D9D9D9", "black")
CHOSEN = "#0072B2"
CAPTIONS = {
    "!": "! critical meter, thick: without it the rank falls",
    "=": "= meter listed in a bound: redundant, in a part that falls short",
    "-": "- other meter",
    "+": "+ candidate to buy, thick and blue",
    "alone": "bus without the name of an island: stands alone",
    "tie": "dashed line: between two islands",
    "metered": "solid line: black with a flow meter, grey without",
    "injected": "box: has an injection or zero",
    "source": "double outline: has a source",
    "dead": "grey bus, dotted line: in a part without a source",
    "reference": "hexagon: the time reference of an absolute part, in the colour of the island that is tied to it; line to it: angle meter",
    "untied": "not tied, no tie: no angle meter ties this to the time reference",
}
MOST_WITH_NAMES = 60
MOST_BY_NEATO = 60


def text(value):
    """A text in quotes, of which Graphviz takes no part for a sign of its own."""
    for sign, escaped in [("\\", "\\\\"), ('"', '\\"'), ("&", "&amp;"), ("\n", "\\n")]:
        value = value.replace(sign, escaped)
    return f'"{value}"'


def attributes(**values):
    return "[" + ", ".join(f"{name}={value if isinstance(value, (int, float)) else text(value)}" for name, value in values.items()) + "]"


def colours_of(answer):
    """A colour for each island: another one than those of the islands that branches tie it to, as long as there are enough."""
    beside = collections.defaultdict(set)
    for e in answer.ties:
        a, b = (answer.island[u] for u in answer.ends[e])
        beside[a].add(b)
        beside[b].add(a)
    used, found = collections.Counter(), {}
    for island in sorted(answer.islands, key=lambda i: -len(answer.islands[i])):
        near = collections.Counter(found[other] for other in beside[island] if other in found)
        found[island] = min(range(len(COLOURS)), key=lambda k: (near[k], used[k]))
        used[found[island]] += 1
    return {island: COLOURS[k] for island, k in found.items()}


class Marks:
    """What is marked at each branch and each bus: pairs of a sign and a name."""

    def __init__(self, answer):
        critical = set(answer.critical)
        listed = {name for bound in answer.bounds.values() for name in bound.inside}
        self.at_branch, self.at_bus, self.at_tie = (collections.defaultdict(list) for _ in range(3))
        for m in answer.live_meters:
            row = answer.case.meters[m]
            sign = "!" if row[0] in critical else "=" if row[0] in listed else "-"
            self.add(answer, row, sign, row[0] + (" (zero)" if row[1] == "zero" else ""))
        for name in answer.plan.chosen if answer.plan else []:
            row = answer.case.candidates[answer.candidate_at[name]]
            self.add(answer, row, "+", f"{name}, {row[3]:,}")

    def add(self, answer, row, sign, name):
        """An angle meter stands at the tie of its bus to the time reference."""
        {"flow": self.at_branch, "angle": self.at_tie}.get(row[1], self.at_bus)[answer.place(row)].append((sign, name))

    def signs(self):
        every = (*self.at_branch.values(), *self.at_bus.values(), *self.at_tie.values())
        return {sign for some in every for sign, _ in some}


def outline(signs):
    return {"color": CHOSEN if "+" in signs else "black", "penwidth": 3 if signs & {"!", "+"} else 1}


class Drawing:
    """A drawing. Where it is folded, an island or a dead part is one node."""

    def __init__(self, answer, words, folded=False, has_caption=True):
        self.answer, self.words, self.folded, self.has_caption = answer, words, folded, has_caption
        self.marks = Marks(answer)
        self.colours = colours_of(answer)
        self.ties = set(answer.ties)
        self.sources = {answer.bus[node] for node, row in enumerate(answer.case.nodes) if row[1]}
        self.has_names = len(answer.names) <= MOST_WITH_NAMES
        self.is_spread = len(answer.islands) + len(answer.dead_parts) <= MOST_BY_NEATO if folded else self.has_names
        self.widths, self.apart, self.spread = {}, "vpsc", 1
        self.untied = {u for part in answer.absolute for u in answer.untied(part)}
        self.inner = collections.defaultdict(list)
        for e, (u, _) in answer.ends.items():
            if folded and e not in self.ties:
                self.inner[self.group_of(u)].append(e)

    def text(self, apart="vpsc", spread=1):
        """The drawing, with the word by which Graphviz moves nodes apart, and lines that are so many times as long as they need to be."""
        self.apart, self.spread = apart if self.is_spread else "prism", spread
        return "".join(line + "\n" for line in self.lines())

    def lines(self):
        size = len(self.answer.islands) + len(self.answer.dead_parts) if self.folded else len(self.answer.names)
        layout, splines = ("neato", "true") if size <= MOST_BY_NEATO else ("sfdp", "line")
        caption = "".join(line + "\\l" for line in ["", *self.caption()]) if self.has_caption else ""
        yield "graph obs {"
        yield f'  graph [layout={layout}, overlap="{self.apart}", splines="{splines}", sep="+16", outputorder="edgesfirst", start=1,'
        yield f'    fontname="Helvetica", fontsize=11, labelloc="b", labeljust="l", label="{caption}"];'
        yield '  node [fontname="Helvetica", fontsize=11, style="filled", margin="0.06,0.03", width=0.3, height=0.25];'
        yield '  edge [fontname="Helvetica", fontsize=9];'
        title = lambda island: f"island {shown(self.answer.names[island])}"
        groups = [(f"island_{i}", title(i), self.colours[i], some) for i, some in self.answer.islands.items()]
        groups += [(f"part_{p}", "no source", UNSOURCED, some) for p, some in self.answer.dead_parts.items()]
        for name, title, colours, buses in groups:
            yield from self.folded_group(name, title, colours, buses) if self.folded else self.group(name, title, colours, buses)
        yield from self.folded_ties() if self.folded else map(self.edge, self.answer.ends)
        yield from self.references()
        yield "}"

    def caption(self):
        """What the signs of this drawing mean."""
        counts = self.answer.counts
        lacking = counts["needed"] - counts["rank"]
        missing = f": {lacking:,} of {counted(counts['needed'], 'pair')} missing" if lacking else ""
        used = self.marks.signs() | ({"tie"} if self.ties else set()) | ({"dead"} if self.answer.dead_parts else set())
        if self.folded or not self.has_names:
            used.discard("-")
        if not self.folded:
            used |= {"metered"} | ({"injected"} if self.answer.injected else set()) | ({"source"} if self.sources else set())
        first = f"{counted(counts['buses'], 'bus', 'buses')}. obs says {self.answer.verdict}{missing}. Buses of one island have one colour."
        used |= ({"reference"} if self.answer.absolute else set()) | ({"untied"} if self.untied else set())
        used |= {"alone"} if not self.folded and any(len(some) == 1 for some in self.answer.islands.values()) else set()
        return [first] + [line for sign, line in CAPTIONS.items() if sign in used]

    def group(self, name, title, colours, buses):
        is_titled = colours == UNSOURCED or len(buses) > 1 and len(self.answer.islands) > 1
        yield f"  subgraph {name} {{"
        for u in buses:
            yield "    " + self.bus(u, title, colours, is_titled)
        yield "  }"

    def bus(self, u, title, colours, is_titled):
        marks = self.marks.at_bus[u]
        lines = [shown(self.answer.names[u])] + ([title] if is_titled else []) + (["not tied"] if u in self.untied else [])
        hint = [f"bus {self.words.nodes(u)}, {title}"] + self.named(marks)
        label, shape = "\n".join(lines + self.labels(marks)), "box" if u in self.answer.injected else "ellipse"
        self.widths[u] = node_width(label, shape)
        return f"b{u} " + attributes(
            label=label,
            tooltip="\n".join(hint),
            id=f"bus_{u}",
            shape=shape,
            peripheries=2 if u in self.sources else 1,
            fillcolor=colours[0],
            fontcolor=colours[1],
            **outline({sign for sign, _ in marks}),
        ) + ";"

    def labels(self, marks):
        """The marks of a bus or a branch: with names in a small drawing, else the signs alone."""
        if self.has_names:
            return self.named(marks)
        counts = collections.Counter(sign for sign, _ in marks if sign != "-")
        return [f"{sign} {count:,}" if count > 1 else sign for sign, count in counts.items()]

    def named(self, marks):
        some = [f"{sign} {shown(name)}" for sign, name in marks[: self.words.most]]
        rest = len(marks) - len(some)
        return some + ([f"and {rest:,} more"] if rest else [])

    def edge(self, e):
        u, v = self.answer.ends[e]
        marks = self.marks.at_branch[e]
        name = [shown(self.answer.case.branches[e][0])] if self.has_names else []
        hint = [f"branch {self.words.branch(e)}"] + self.named(marks)
        label = "\n".join(name + self.labels(marks))
        return f"  b{u} -- b{v} " + attributes(
            label=label,
            **self.length(label, u, v),
            tooltip="\n".join(hint),
            labeltooltip="\n".join(hint),
            id=f"branch_{e}",
            **self.line_of(e, {sign for sign, _ in marks}),
        ) + ";"

    def length(self, label, *ends):
        """How long a line is asked for, where it is named."""
        return {"len": line_length([self.widths[u] for u in ends], label, self.spread)} if self.is_spread else {}

    def line_of(self, e, signs):
        """How the line of a branch is drawn."""
        is_dead = not self.answer.is_live(e)
        return {
            "style": "dotted" if is_dead else "dashed" if e in self.ties else "solid",
            "color": CHOSEN if "+" in signs else "black" if signs or e in self.ties else "#808080",
            "penwidth": 3.5 if signs & {"!", "+"} else 1.8 if signs or e in self.ties else 1,
        }

    def folded_group(self, name, title, colours, buses):
        """An island as one node, with the numbers of its buses and marks."""
        inside = [mark for u in buses for mark in self.marks.at_bus[u]]
        inside += [mark for e in self.inner[name] for mark in self.marks.at_branch[e]]
        signs = collections.Counter(sign for sign, _ in inside)
        lines = [shown(self.answer.names[buses[0]])] if len(buses) == 1 else []
        lines += [title] if colours == UNSOURCED or len(buses) > 1 else []
        lines += [counted(len(buses), "bus", "buses")] + (["not tied"] if buses[0] in self.untied else [])
        lines += [f"{sign} {signs[sign]:,}" for sign in CAPTIONS if signs[sign] and sign != "-"]
        size = f"{0.4 + 0.06 * math.sqrt(len(buses)):.2f}"
        self.widths[name] = max(node_width("\n".join(lines), "ellipse"), 72 * float(size))
        yield "  " + f"{name} " + attributes(
            label="\n".join(lines), tooltip=f"{title}: {self.words.buses(buses)}", id=name, shape="ellipse", width=size, height=size,
            fillcolor=colours[0], fontcolor=colours[1], **outline(set(signs))) + ";"

    def group_of(self, u):
        """The name of the group of a bus: its island, or its dead part."""
        return f"part_{self.answer.part[u]}" if self.answer.island[u] is None else f"island_{self.answer.island[u]}"

    def folded_ties(self):
        """One line for all branches between two islands."""
        between = collections.defaultdict(list)
        for e in sorted(self.ties):
            between[tuple(sorted(self.answer.island[u] for u in self.answer.ends[e]))].append(e)
        for (a, b), some in between.items():
            signs = {sign for e in some for sign, _ in self.marks.at_branch[e]}
            label = self.words.branch_name(some[0]) if len(some) == 1 else counted(len(some), "branch", "branches")
            label = "\n".join([label] + sorted(signs - {"-"}))
            yield f"  island_{a} -- island_{b} " + attributes(
                label=label, **self.length(label, f"island_{a}", f"island_{b}"),
                tooltip="\n".join(self.words.branch(e) for e in some[: self.words.most]),
                id=f"branch_{some[0]}", **self.line_of(some[0], signs)) + ";"

    def references(self):
        """The time reference of each absolute part, and its ties: a line for each bus or group that has angle meters."""
        for part in sorted(self.answer.absolute):
            yield self.reference(part)
            places = collections.defaultdict(list)
            for u in self.answer.parts[part]:
                if self.marks.at_tie[u]:
                    places[self.group_of(u) if self.folded else u] += self.marks.at_tie[u]
            for place, marks in places.items():
                yield self.tie(place, part, marks)
            if not places:
                yield self.tie(self.group_of(part) if self.folded else part, part, [])

    def reference(self, part):
        island, name = self.answer.with_reference.get(part), self.words.bus(part)
        colours = ("white", "black") if island is None else self.colours[island]
        lines = ["time reference"] + ([f"of {name}"] if len(self.answer.parts) > 1 else []) + (["not tied"] if island is None else [])
        label = "\n".join(lines)
        self.widths[f"r{part}"] = node_width(label, "hexagon")
        return f"  r{part} " + attributes(
            label=label, tooltip=f"time reference of the part of {name}", id=f"reference_{part}", shape="hexagon", fillcolor=colours[0],
            fontcolor=colours[1], style="filled" if island is not None else "filled,dashed") + ";"

    def tie(self, place, part, marks):
        """The tie of a bus or a group to the time reference, or where there are no marks the one that the part has not."""
        signs = {sign for sign, _ in marks}
        labels = [counted(len(marks), "angle meter")] if self.folded else self.labels(marks)
        label = "\n".join(labels) if marks else "no tie"
        hint = "\n".join(self.named(marks)) if marks else f"no angle meter ties the part of {self.words.bus(part)} to its time reference"
        colour = CHOSEN if "+" in signs else "black" if marks else "#808080"
        end = place if self.folded else f"b{place}"
        return f"  {end} -- r{part} " + attributes(
            label=label, **self.length(label, place, f"r{part}"), tooltip=hint, labeltooltip=hint, id=f"tie_{end}", color=colour,
            style="solid" if marks else "dashed", penwidth=3.5 if signs & {"!", "+"} else 1.8 if marks else 1) + ";"
