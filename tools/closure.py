"""The closure of what is claimed: each definition that the claims rest on, by names and imports."""
import os
import re

from declarations import Declared, rust_files
from definitions import Definition, member_names, spec_files, tokens_of
from scopes import Walk, tree_of, walk_definition

# Constructors of the kit that clauses match.
KIT_CONSTRUCTORS = set("[] ∷ ◌∷◌ suc zero true false Some None Ok Err inl inr yes no".split())
# Fields that the kit gives values: of pairs, references, vectors, sets, strings and closures.
KIT_FIELDS = set("0 1 2 3 now old new items keys value entry exit ghost_name dealloc_token".split())


class Unresolved(Exception):
    """A name that is no definition of the repository or the kit, no bound variable, no field and no constructor."""


class Sources:
    """All definitions and declarations of the repository, found by the names of their modules."""

    def __init__(self, top):
        self.top = top
        self.order = [line.split(":")[0].split()[0] for line in open(os.path.join(top, "crates.txt"), encoding="utf-8")
                      if line.strip() and not line.startswith("#")]
        self.specs = {}
        self.rust = {}
        self.by_name = {}
        for crate in self.order:
            for file in spec_files(top, crate):
                self.specs[file.module] = file
            for file in rust_files(top, crate):
                self.rust[crate, file.module] = file
                for name, item in file.declared.items():
                    self.by_name.setdefault(name, []).append(item)
        self.fields = self.all_fields()
        self.models = {(file.crate, name): (file, *model) for file in self.rust.values() for name, model in file.models.items()}

    def all_fields(self):
        found = set(KIT_FIELDS)
        for file in self.specs.values():
            for item in file.definitions.values():
                found.update(member_names(item) if item.kind == "record" else [])
        for file in self.rust.values():
            for item in file.declared.values():
                found.update(item.members() if item.kind == "struct" else [])
        return found

    def declared(self, module):
        """The type of a module's name below `declared`, and whether the name is that of its variants or its inside."""
        _, crate, _, _, *path = module.split(".")
        if path[-1] in ("TheVariants", "TheInside"):
            path.pop()
        file = self.rust.get((crate, ".".join(path[:-1])))
        return file.declared.get(path[-1]) if file else None

    def definition(self, module, name):
        """What a name of a module is: a definition, a declared type, a constructor's data, or the kit's, which is None."""
        parts = module.split(".")
        if parts[0] != "Rattle" or parts[1] not in self.order:
            return None
        item = self.of_source(module, parts, name) if len(parts) > 3 and parts[3] in ("declared", "contracts") else self.of_specs(module, name)
        if item is None:
            raise Unresolved(f"{module}.{name}")
        return item

    def of_source(self, module, parts, name):
        """A type of the sources, of which the name is that, a variant's or its inside's; or a call whose contract is meant."""
        if name == "the_row":
            return self.declared(module)
        if parts[3] == "contracts":
            return next((file.calls[name] for file in self.rust.values() if file.crate == parts[1] and name in file.calls), None)
        item = self.declared(module)
        return item if item and (name in (item.name, "Inside") or name in item.members()) else None

    def of_specs(self, module, name):
        """A definition of a file of specs/, or the data of a constructor."""
        file = self.specs.get(module)
        if file and name in file.definitions:
            return file.definitions[name]
        if file:
            return file.data_of(name)
        outer, _, inner = module.rpartition(".")
        data = self.specs[outer].definitions.get(inner) if outer in self.specs else None
        return data if data and name in member_names(data) else None

    def rust_type(self, name, file):
        """The type or trait of the repository that a source file calls by a name; None where it is the kit's or a parameter."""
        if name in file.declared:
            return file.declared[name]
        found = self.by_name.get(name, [])
        if len(found) > 1:
            crates = {file.crate if path == "crate" else path for path, inner, names in file.uses if name in re.findall(r"\w+", inner + " " + names)}
            found = [item for item in found if item.place.crate in crates]
        if len(found) > 1:
            raise Unresolved(f"{file.path}: {name} may be one of several types")
        return found[0] if found else None


class Names:
    """What the names of one file are. What is seen is kept in `found`."""

    def __init__(self, sources, file, definitions=(), parameters=None):
        self.sources = sources
        self.file = file
        self.found = []
        self.here = {}
        self.paths = {}
        self.parameters = parameters or {}
        self.constructors = set(KIT_CONSTRUCTORS)
        for item in file.imports:
            self.bring(item)
        for item in definitions:
            self.here[item.name] = (item, False)
            if item.kind == "data":
                for name in member_names(item):
                    self.here[name] = (item, True)
                    self.constructors.add(name)

    def bring(self, item):
        if item.whole:
            self.paths[item.here] = item.module
            return
        target = self.sources.definition(item.module, item.name)
        made = target is not None and target.name != item.name
        for part in [item.here] + [p for p in item.here.split("◌") if p] if "◌" in item.here else [item.here]:
            self.here[part] = (target, made)
        if made and item.name != "Inside":
            self.constructors.add(item.here)

    def is_constructor(self, text):
        return text in self.constructors

    def is_path(self, text):
        return text in self.paths or text in self.parameters or self.rust_of(text) is not None

    def rust_of(self, text):
        """The declared type that a name is: one that is brought in, or in a clause one of the source file."""
        if text in self.here:
            target, made = self.here[text]
            return target if isinstance(target, Declared) and not made else None
        return self.sources.rust_type(text, self.file) if hasattr(self.file, "uses") else None

    def see(self, target):
        if target is not None:
            self.found.append(target)

    def seen(self, token):
        if token.text in self.here:
            self.see(self.here[token.text][0])
        elif token.text in self.parameters:
            self.see(self.sources.rust_type(self.parameters[token.text], self.file))
        elif (item := self.rust_of(token.text)) is not None:
            self.see(item)
        else:
            raise Unresolved(f"{self.file.path}:{token.line}: {token.text}")

    def seen_of(self, path, token):
        if path.text in self.parameters:
            self.see(self.member(self.sources.rust_type(self.parameters[path.text], self.file), token))
        elif path.text in self.paths:
            module = self.paths[path.text]
            self.see(self.sources.definition(module, token.text))
        else:
            self.see(self.member(self.rust_of(path.text), token))

    def member(self, item, token):
        if item is None or token.text not in item.members():
            raise Unresolved(f"{self.file.path}:{token.line}: .{token.text}")
        return item

    def seen_field(self, token):
        if token.text not in self.sources.fields:
            raise Unresolved(f"{self.file.path}:{token.line}: .{token.text}")

    def seen_impl(self, token):
        for name in re.findall(r"[A-Z]\w*", token.text):
            if name not in self.parameters:
                self.see(self.sources.rust_type(name, self.file))


def rests_on(sources, item):
    """What a definition or a declaration names."""
    if isinstance(item, Definition):
        names = Names(sources, item.place, item.place.definitions.values())
        walk_definition(item, names)
        return names.found
    if item.kind in ("trait", "call"):
        return in_clauses(sources, item) + in_signature(sources, item)
    model = sources.models.get((item.place.crate, item.name))
    if model:
        return in_model(sources, item, *model)
    return ghost_fields(sources, item) + [found for name in item.field_types() if (found := sources.rust_type(name, item.place))]


def in_signature(sources, item):
    """The types that the parameters and the result of a call name."""
    if item.kind == "trait":
        return []
    head = re.split(r"\n\s+(?:requires|ensures)", "\n".join(item.text()))[0]
    return [found for name in re.findall(r"\b[A-Z]\w*", head) if name not in item.parameters() and (found := sources.rust_type(name, item.place))]


def ghost_fields(sources, item):
    """What the types of a struct's public ghost fields name."""
    names = Names(sources, item.place)
    for line in item.text():
        match = re.match(r"    pub ghost \w+: \{(.*)\}", line)
        if match:
            Walk(names).walk(tree_of(tokens_of([match.group(1)], item.first)), set())
    return names.found


def in_clauses(sources, item):
    """What the clauses of a call name, or those of a trait, whose own members are no names of others."""
    names = Names(sources, item.place, parameters=item.parameters() if item.kind == "call" else {})
    inside = {"result", "self"} | set(item.members() if item.kind == "trait" else [])
    text = " ".join(item.text())
    inside |= set(re.findall(r"(\w+): ", text.split("ensures")[0] if item.kind == "call" else text)) - set(names.parameters)
    for _, _, tokens in item.clauses():
        Walk(names).walk(tree_of(tokens), inside)
    return names.found


def in_model(sources, item, file, words, parameters):
    """What the value and the view of a model name, and the types of the fields that they name."""
    names = Names(sources, file, parameters=parameters)
    for tokens in words:
        Walk(names).walk(tree_of(tokens), set())
    fields = {token.text for tokens in words for token in tokens}
    return names.found + [found for name in item.field_types(fields) if (found := sources.rust_type(name, item.place))]


def closure_of(sources, roots, known):
    """All that some calls rest on, in a fixed order. `known` keeps what each definition names."""
    found, waiting = [], list(roots)
    met = set(roots)
    while waiting:
        item = waiting.pop()
        if item not in known:
            known[item] = list(dict.fromkeys(rests_on(sources, item)))
        for other in known[item]:
            if other not in met:
                met.add(other)
                found.append(other)
                waiting.append(other)
    return found
