"""How far apart a drawing's nodes are to stand, so that no bus covers what is written at a line; and the picture by Graphviz."""
import html
import re
import shutil
import subprocess

from answer import OWN_FAILURE, Failure

HALO = "<style>.edge text { paint-order: stroke; stroke: white; stroke-width: 4px; stroke-linejoin: round }</style>"
# The ways to draw a case with names, one after the other, until nothing is covered: how Graphviz moves nodes apart, and how many times
# as long as they need to be the lines are asked for.
WAYS = [("vpsc", 1), ("vpsc", 1.3), ("scalexy", 1), ("scalexy", 1.3), ("scalexy", 1.7), ("scalexy", 2.4)]
# The width and the height of a letter for its size, of a wide font; what an ellipse and a box want beyond their text, in points.
WIDE, HIGH = 0.6, 1.2
AROUND = {"ellipse": (1.42, 12), "hexagon": (1.9, 12), "box": (1, 12)}


def width_of(label, size):
    return max((len(line) for line in label.split("\n")), default=0) * size * WIDE


def node_width(label, shape):
    times, more = AROUND[shape]
    return width_of(label, 11) * times + more


def line_length(ends, label, spread):
    """The length of a line in inches that has room for its label between the nodes, even where it lies flat."""
    return max(1.2, round((sum(ends) / 2 + width_of(label, 9) + 16) * spread / 72, 2))


def picture_of(drawing):
    """The picture as SVG, in which names can be read above lines, or None where there is no Graphviz."""
    if not shutil.which("dot"):
        return None
    best, least = None, None
    for way in WAYS if drawing.is_spread else WAYS[:1]:
        done = subprocess.run(["dot", "-Tsvg"], input=drawing.text(*way).encode("utf-8", "backslashreplace"), capture_output=True)
        if done.returncode:
            raise Failure(OWN_FAILURE, "dot says: " + done.stderr.decode("utf-8", "replace"))
        picture = done.stdout.decode("utf-8")
        hidden = len(covered(picture)) if drawing.is_spread else 0
        if least is None or hidden < least:
            best, least = picture, hidden
        if not hidden:
            break
    return best.replace("<g id=", f"{HALO}\n<g id=", 1)


def box_of_text(x, y, size, words):
    """A text is written from its middle. Of an estimated box only the inner part counts."""
    half = len(words) * size * WIDE * 0.46
    return (x - half, y - size * 0.7, x + half, y + size * 0.1)


def boxes_of(picture):
    """The labels of lines, each with the name of its line, and the boxes of nodes and inner boxes of ellipses."""
    labels, nodes = [], []
    for kind, body in re.findall(r'class="(node|edge)">(.*?)</g>\n(?=<!--|</g>)', picture, re.DOTALL):
        if kind == "node":
            nodes.append(box_of_shape(body))
            continue
        for x, y, size, words in re.findall(r'<text [^>]*x="([-\d.]+)" y="([-\d.]+)"[^>]*font-size="([\d.]+)"[^>]*>(.*?)</text>', body):
            words = html.unescape(words)
            labels.append((words, box_of_text(float(x), float(y), float(size), words)))
    return labels, nodes


def box_of_shape(body):
    """The box of the last shape of a node; of an ellipse one that is some smaller than around it."""
    ellipses = re.findall(r'<ellipse [^>]*cx="([-\d.]+)" cy="([-\d.]+)" rx="([\d.]+)" ry="([\d.]+)"', body)
    if ellipses:
        x, y, rx, ry = map(float, ellipses[-1])
        return (x - 0.85 * rx, y - 0.85 * ry, x + 0.85 * rx, y + 0.85 * ry)
    points = [tuple(map(float, point.split(","))) for point in re.findall(r'<polygon [^>]*points="([^"]*)"', body)[-1].split()]
    return (min(x for x, _ in points), min(y for _, y in points), max(x for x, _ in points), max(y for _, y in points))


def covered(picture):
    """The labels of lines that a node covers."""
    labels, nodes = boxes_of(picture)
    meets = lambda a, b: a[0] < b[2] and b[0] < a[2] and a[1] < b[3] and b[1] < a[3]
    return [words for words, box in labels if any(meets(box, node) for node in nodes)]
