"""One page of HTML with the picture of a case, what obs answered in sentences and in tables, and a search by name."""
import datetime
import html
import json
import os
import subprocess

from answer import HOME
from explaining import sections_of
from wording import Words, counted, quoted, shown

MOST = 40
STYLE = """
:root { color-scheme: light; font: 15px/1.45 Helvetica, Arial, sans-serif; color: #111; background: #fff }
body { max-width: 75rem; margin: 1rem auto; padding: 0 1rem }
h1 { font-size: 1.5rem } h2 { font-size: 1.15rem; margin: 1.6rem 0 .3rem; break-after: avoid }
.verdict { font-weight: bold; border: 2px solid #111; padding: .2rem .6rem; display: inline-block }
.origin { color: #444; font-size: .85rem }
.picture { border: 1px solid #999; overflow: auto; max-height: 85vh }
.picture svg { display: block; margin: auto; max-width: 100%; height: auto }
#whole:checked ~ .picture svg { max-width: none }
table { border-collapse: collapse; margin: .4rem 0 }
th, td { border: 1px solid #999; padding: .15rem .5rem; text-align: left; vertical-align: top }
th { background: #eee } td.number { text-align: right }
#found { list-style: none; padding: 0 } #found button { font: inherit; border: 0; background: none; text-align: left; cursor: pointer }
.legend { list-style: none; padding: 0; font-size: .85rem; columns: 2 }
#found button:hover, #found button:focus { background: #ffd }
.sought ellipse, .sought polygon, .sought path { stroke: #D00000; stroke-width: 6 }
@media print {
  .screen { display: none } .picture { max-height: none; overflow: visible; border: 0 }
  body { max-width: none } tr { break-inside: avoid }
}
"""
SCRIPT = """
const rows = JSON.parse(document.getElementById('names').textContent);
const field = document.getElementById('sought'), list = document.getElementById('found');
function show(target) {
  for (const other of document.querySelectorAll('.sought')) other.classList.remove('sought');
  const node = document.getElementById(target);
  const picture = node && node.closest('svg');
  if (picture && picture.width.baseVal.value > 2 * picture.parentElement.clientWidth) document.getElementById('whole').checked = true;
  if (node) { node.classList.add('sought'); node.scrollIntoView({block: 'center', inline: 'center'}); }
}
field.addEventListener('input', () => {
  const word = field.value.toLowerCase(), found = word ? rows.filter(row => row[0].toLowerCase().includes(word)) : [];
  found.sort((a, b) => (b[0].toLowerCase() === word) - (a[0].toLowerCase() === word));
  list.replaceChildren(...found.slice(0, 20).map(row => {
    const item = document.createElement('li'), button = document.createElement('button');
    button.textContent = row[1];
    button.addEventListener('click', () => show(row[2]));
    item.append(button);
    return item;
  }));
  if (found.length > 20) list.append(`and ${found.length - 20} more`);
  if (word && !found.length) list.append('no such name');
  if (found.length) show(found[0][2]);
});
"""


def origin():
    """The commit of these tools: that of an unpacked archive, or that of the repository."""
    try:
        with open(os.path.join(HOME, "VERSION"), encoding="utf-8") as file:
            words = [line.rstrip("\n").split("\t") for line in file]
        return "commit " + next(word[1] for word in words if word[0] == "commit")
    except (OSError, StopIteration):
        pass
    git = lambda *words: subprocess.run(["git", "-C", HOME, *words], capture_output=True, text=True, check=True).stdout.strip()
    try:
        return f"commit {git('rev-parse', 'HEAD')}" + (", with changes" if git("status", "--porcelain", "--untracked-files=no") else "")
    except (OSError, subprocess.CalledProcessError):
        return "a commit that isn't known here"


def table(title, head, rows):
    """A table, or nothing where it has no rows. Numbers stand at the right."""
    if not rows:
        return ""
    cell = lambda value: f'<td class="number">{value:,}</td>' if isinstance(value, int) else f"<td>{html.escape(value)}</td>"
    lines = [f"<h2>{html.escape(title)}</h2>", "<table>", "<tr>" + "".join(f"<th>{html.escape(word)}</th>" for word in head) + "</tr>"]
    return "\n".join(lines + ["<tr>" + "".join(map(cell, row)) + "</tr>" for row in rows] + ["</table>"])


def sentences(sections):
    lines = []
    for title, entries in sections:
        lines.append(f"<h2>{html.escape(title)}</h2>")
        for sentence, items in entries:
            lines.append(f"<p>{html.escape(sentence)}</p>")
            some = items[:MOST] + ([f"and {len(items) - MOST:,} more"] if len(items) > MOST else [])
            lines += ["<ul>"] + [f"<li>{html.escape(item)}</li>" for item in some] + ["</ul>"] if items else []
    return "\n".join(lines)


def island_rows(found, words):
    order = sorted(found.islands, key=lambda i: -len(found.islands[i]))
    name = lambda u: shown(found.names[u])
    return [(name(i), name(found.part[i]), len(found.islands[i]), ", ".join(words.bus(u) for u in found.islands[i])) for i in order]


def meter_row(words, row, *more):
    kind, _, place = words.place(row).partition(" ")
    return (shown(row[0]), kind, place.partition(" ")[2], *more)


def bound_rows(found, words):
    rows = []
    for part in found.short_parts:
        bound = found.bounds[found.names[part]]
        listed = ", ".join(map(quoted, bound.inside))
        rows.append((shown(found.names[part]), found.need(part), bound.rank, bound.outside, found.missing(part), listed))
    return rows


def reference_rows(found, words):
    rows = []
    for part in (part for part in found.parts if part in found.absolute):
        by = ", ".join(quoted(found.case.meters[m][0]) for m in found.angle_meters.get(part, []))
        rows.append((shown(found.names[part]), len(found.parts[part]), by or "none", words.buses(found.untied(part)) or "none"))
    return rows


def tables(found, words):
    meters, candidates = found.case.meters, found.case.candidates
    chosen = [candidates[found.candidate_at[name]] for name in found.plan.chosen] if found.plan else []
    end = lambda u: (words.bus(u), words.bus(found.island[u]))
    ties = [(words.branch_name(e), *end(found.ends[e][0]), *end(found.ends[e][1])) for e in found.ties]
    dead = [(shown(found.names[p]), len(some), ", ".join(words.nodes(u) for u in some)) for p, some in found.dead_parts.items()]
    bound_head = ["part", "needed", "rank of the listed meters", "other live meters", "missing", "listed meters"]
    return "\n".join([
        table("Parts without a source", ["first bus", "buses", "their nodes"], dead),
        table("Absolute parts and their time reference", ["part", "buses", "tied by the angle meters", "buses that aren't tied"],
              reference_rows(found, words)),
        table("Islands", ["island", "part", "buses", "their names"], island_rows(found, words)),
        table("Branches between islands", ["branch", "from", "island", "to", "island"], ties),
        table("Bounds of parts that fall short", bound_head, bound_rows(found, words)),
        table("Critical meters", ["meter", "kind", "place"], [meter_row(words, meters[found.meter_at[name]]) for name in found.critical]),
        table("What to buy", ["candidate", "kind", "place", "price"], [meter_row(words, row, row[3]) for row in chosen]),
    ])


def names_of(found, words, drawing):
    """For the search: each name, what it is of, and the node or line of the picture."""
    bus_target = lambda u: drawing.group_of(u) if drawing.folded else f"bus_{u}"
    has_line = lambda e: not drawing.folded and e in found.ends
    branch_target = lambda e: f"branch_{e}" if has_line(e) else bus_target(found.bus[found.case.branches[e][1]])
    island = lambda u: f"in island {words.bus(found.island[u])}" if found.island[u] is not None else "in a part without a source"
    rows = []
    for node, row in enumerate(found.case.nodes):
        u = found.bus[node]
        rows.append((shown(row[0]), f"node {quoted(row[0])}, of bus {words.bus(u)}, {island(u)}", bus_target(u)))
    for name, start, end, is_closed in found.case.switches:
        u, v = found.bus[start], found.bus[end]
        at = f"within bus {words.bus(u)}" if u == v else f"between the buses {words.bus(u)} and {words.bus(v)}"
        rows.append((shown(name), f"switch {quoted(name)}, {'closed' if is_closed else 'open'}, {at}", bus_target(u)))
    for e, row in enumerate(found.case.branches):
        rows.append((shown(row[0]), f"branch {words.branch(e)}" + ("" if row[3] else ", out of service"), branch_target(e)))
    for word, items in [("meter", found.case.meters), ("candidate", found.case.candidates)]:
        for row in items:
            out = ", out of service" if word == "meter" and not row[3] else ""
            rows.append((shown(row[0]), f"{word} {quoted(row[0])}: {words.place(row)}{out}",
                         branch_target(row[2]) if row[1] == "flow" else bus_target(found.bus[row[2]])))
    return rows


def picture_part(picture, drawing):
    if picture is None:
        return ('<p>There is no picture, since Graphviz (the command dot) was not there. This is the drawing in its language:</p>\n'
                f'<pre class="picture">{html.escape(drawing.text())}</pre>')
    note = "<p>Each island is one node here, and the branches between two islands are one line.</p>\n" if drawing.folded else ""
    legend = "".join(f"<li>{html.escape(line)}</li>" for line in drawing.caption())
    return (f'{note}<input type="checkbox" id="whole" class="screen"><label for="whole" class="screen"> in full size</label>\n'
            f'<div class="picture">{picture[picture.index("<svg"):]}</div>\n<ul class="legend">{legend}</ul>')


def title_of(form):
    """The folder of the tables, or the file of the case."""
    path = os.path.abspath(next(iter(form.files.values())))
    return shown(os.path.basename(os.path.dirname(path) if form.kind == "tables" else path))


def page_of(found, picture, drawing, program):
    words = Words(found, MOST)
    names = json.dumps(names_of(found, words, drawing), ensure_ascii=False).replace("<", "\\u003c")
    missing = found.counts["needed"] - found.counts["rank"]
    verdict = "observable" if found.verdict == "observable" else f"short: {counted(missing, 'pair is', 'pairs are')} missing"
    now = datetime.datetime.now().strftime("%Y-%m-%d %H:%M")
    files = ", ".join(map(shown, found.form.files.values()))
    return f"""<!DOCTYPE html>
<html lang="en"><head><meta charset="utf-8"><meta name="viewport" content="width=device-width, initial-scale=1">
<title>{html.escape(f"{title_of(found.form)}: {found.verdict}")}</title><style>{STYLE}</style></head><body>
<h1>{html.escape(title_of(found.form))}</h1>
<p class="verdict">{html.escape(verdict)}</p>
<p class="origin">All answers here are those that the program obs ({html.escape(shown(program))}) printed on {now} of the files
{html.escape(files)}. The tools that read what it printed, of {html.escape(origin())}, add no verdict of their own.</p>
<p class="screen"><label>Search a bus, node, switch, branch or meter by name: <input id="sought" type="search" autocomplete="off"></label></p>
<ul id="found" class="screen"></ul>
{picture_part(picture, drawing)}
{sentences(sections_of(found, words))}
{tables(found, words)}
<script type="application/json" id="names">{names}</script><script>{SCRIPT}</script>
</body></html>
"""
