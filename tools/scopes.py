"""Which names of a text are free: it is walked with the variables that are bound at each place."""
from definitions import Token

CLOSING = {"(": ")", "{": "}", "[": "]"}
# Words of the language.
WORDS = set("→ × = : λ | ↦ , ; . @ _ as elim let in record unfolding where Type refl tt Unit ⊥ absurd ¬ abbrev unfoldable pub data ∗ ⌜ ⌝".split())


class Group:
    """A bracket with what stands in it."""

    def __init__(self, opening, nodes, behind):
        self.opening = opening
        self.nodes = nodes
        self.behind = behind


def tree_of(tokens):
    """The words as a tree of brackets."""
    stack = [(None, [])]
    for token in tokens:
        if token.text in CLOSING:
            stack.append((token, []))
        elif token.text in CLOSING.values():
            opening, nodes = stack.pop()
            if opening is None or CLOSING[opening.text] != token.text:
                raise ValueError(f"line {token.line}: a bracket that doesn't match")
            stack[-1][1].append(Group(opening, nodes, token.behind))
        else:
            stack[-1][1].append(token)
    if len(stack) != 1:
        raise ValueError(f"line {stack[-1][0].line}: a bracket that isn't closed")
    return stack[0][1]


def is_word(node, text):
    return isinstance(node, Token) and node.text == text


def cut_at(nodes, text):
    """The parts of some nodes between words."""
    parts = [[]]
    for node in nodes:
        if is_word(node, text):
            parts.append([])
        else:
            parts[-1].append(node)
    return parts


class Walk:
    """A walk over one text. `names` says of a name what it is: it has `seen`, `seen_field`, `seen_of`, `is_known` and `is_constructor`."""

    def __init__(self, names):
        self.names = names

    def walk(self, nodes, bound):
        """Sees the free names of nodes; what is bound among them holds to their end."""
        bound = set(bound)
        k = 0
        while k < len(nodes):
            k = self.step(nodes, k, bound)

    def step(self, nodes, k, bound):
        node = nodes[k]
        if isinstance(node, Group):
            self.group(nodes, k, bound)
            return k + 1
        if node.text == "λ":
            return self.binders(nodes, k + 1, bound)
        if node.text == "let":
            return self.named(nodes, k + 1, bound)
        if node.text.startswith("⟦"):
            return self.bracket(nodes, k)
        if node.text == ".":
            return self.field(nodes, k)
        if k + 2 < len(nodes) and self.leads_in(node, nodes[k + 1], bound):
            self.names.seen_of(node, nodes[k + 2])
            return k + 3
        self.name(node, bound)
        return k + 1

    def leads_in(self, node, dot, bound):
        """Whether a name with a dot behind it is a module, a type or a type parameter."""
        return is_word(dot, ".") and dot.before and dot.behind and node.text not in bound and self.names.is_path(node.text)

    def name(self, node, bound):
        text = node.text
        if text in WORDS or text in bound or text[0] in '"0123456789':
            return
        self.names.seen(node)

    def field(self, nodes, k):
        """A dot: a field where a name touches it, else it is passed."""
        if nodes[k].behind and k + 1 < len(nodes) and isinstance(nodes[k + 1], Token):
            self.names.seen_field(nodes[k + 1])
            return k + 2
        return k + 1

    def bracket(self, nodes, k):
        """The bracket that names an impl."""
        end = k
        while not nodes[end].text.endswith("⟧"):
            end += 1
        for token in nodes[k:end + 1]:
            self.names.seen_impl(token)
        return end + (3 if end + 2 < len(nodes) and is_word(nodes[end + 1], ".") else 1)

    def group(self, nodes, k, bound):
        node = nodes[k]
        inner = node.nodes
        names = self.typed(inner)
        if names is not None:
            count = len(names)
            self.walk(inner[count + 1:], bound)
            bound.update(name.text for name in names)
        elif node.opening.text == "{":
            for part in cut_at(inner, ";"):
                self.walk(part[2:] if len(part) > 1 and is_word(part[1], "=") else part, bound)
        elif node.opening.text == "[" and any(is_word(x, "↦") for x in inner):
            for part in cut_at(inner, "|"):
                self.branch(part, bound)
        else:
            self.walk(inner, bound)

    def branch(self, part, bound):
        pattern, *rest = cut_at(part, "↦")
        inside = set(bound)
        self.pattern(pattern, inside)
        for nodes in rest:
            self.walk(nodes, inside)

    def typed(self, inner):
        """The names before the colon, where the nodes are names, a colon and a type."""
        names = []
        for node in inner:
            if is_word(node, ":"):
                return names or None
            if isinstance(node, Group) or node.text in WORDS - {"_"}:
                return None
            names.append(node)
        return None

    def binders(self, nodes, k, bound):
        """What a λ binds, up to its dot."""
        while not is_word(nodes[k], "."):
            if isinstance(nodes[k], Group):
                names = self.typed(nodes[k].nodes)
                if names is None:
                    self.pattern(nodes[k].nodes, bound)
                else:
                    self.group(nodes, k, bound)
            else:
                bound.add(nodes[k].text)
            k += 1
        return k + 1

    def named(self, nodes, k, bound):
        """What a let names; its value ends at the `in` that belongs to it."""
        name, depth, end = nodes[k].text, 1, k
        while depth:
            end += 1
            depth += is_word(nodes[end], "let") - is_word(nodes[end], "in")
        self.walk(nodes[k + 1:end], bound)
        bound.add(name)
        return end + 1

    def pattern(self, nodes, bound):
        """Binds the variables of a pattern, and sees its constructors."""
        k = 0
        while k < len(nodes):
            node = nodes[k]
            if isinstance(node, Group):
                inner = node.nodes
                named = len(inner) > 2 and is_word(inner[1], "=")
                self.pattern(inner[2:] if named else inner, bound)
            elif k + 2 < len(nodes) and self.leads_in(node, nodes[k + 1], bound):
                self.names.seen_of(node, nodes[k + 2])
                k += 2
            elif self.names.is_constructor(node.text):
                self.names.seen(node)
            elif node.text not in WORDS and not node.text[0].isdigit():
                bound.add(node.text)
            k += 1


def walk_definition(definition, names):
    """Sees the names of a definition: its signature or its parameters and members, and its clauses."""
    walk = Walk(names)
    bound = set()
    head = tree_of(definition.head)
    start = next(k for k, node in enumerate(head) if is_word(node, definition.name)) + 1
    rest = [node for node in head[start:]]
    if definition.kind in ("record", "data"):
        walk_members(walk, rest, definition, bound)
    else:
        walk.walk(rest, bound)
    for clause in definition.clauses:
        nodes = tree_of(clause)
        at = next(k for k, node in enumerate(nodes) if is_word(node, "="))
        inside = set()
        walk.pattern(nodes[1:at], inside)
        walk.walk(nodes[at + 1:], inside)


def walk_members(walk, rest, definition, bound):
    """Sees a record or data: its parameters hold in all members, and a field of a record in those behind it."""
    for k, node in enumerate(rest):
        if isinstance(node, Group):
            walk.group(rest, k, bound)
        else:
            walk.name(node, bound)
    for member in definition.members:
        nodes = tree_of(member)
        at = next(k for k, node in enumerate(nodes) if is_word(node, ":"))
        walk.walk(nodes[at + 1:], bound)
        if definition.kind == "record":
            bound.update(node.text for node in nodes[:at])

