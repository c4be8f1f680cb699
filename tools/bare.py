"""A copy of the crates in which nothing is computed: the definitions of specs/ that one crate needs, and the types that they speak of."""
import os
import re
import shutil

from closure import Sources
from definitions import SpecFile


class Bare:
    """What a crate of laws needs of the crates below it: files of specs/ and types of src/, without a function."""

    def __init__(self, top, crate):
        self.top = top
        self.crate = crate
        self.sources = Sources(top)
        self.modules = []
        self.types = []
        folder = os.path.join(top, "crates", crate)
        for place, _, names in os.walk(folder):
            for name in names:
                if name.endswith(".antt") and name != "Lib.antt":
                    self.follow(SpecFile(crate, os.path.join(place, name), "").imports)

    def follow(self, imports):
        """Takes what some imports name, and what that needs."""
        for item in imports:
            parts = item.module.split(".")
            if parts[0] != "Rattle" or parts[1] not in self.sources.order or parts[1] == self.crate:
                continue
            if parts[3] == "declared":
                self.take_type(self.sources.declared(item.module))
                continue
            root = next(root for k in range(len(parts), 3, -1) if (root := ".".join(parts[:k])) in self.sources.specs)
            if root not in self.modules:
                self.modules.append(root)
                self.follow(self.sources.specs[root].imports)

    def take_type(self, item):
        if item in self.types:
            return
        self.types.append(item)
        for name in item.field_types():
            other = self.sources.rust_type(name, item.place)
            if other is not None:
                self.take_type(other)

    def write(self, to):
        """Writes the copy, and the crate itself as it is."""
        for crate in self.sources.order:
            self.write_specs(to, crate)
            self.write_types(to, crate)
        target = os.path.join(to, "crates", self.crate)
        shutil.rmtree(target)
        shutil.copytree(os.path.join(self.top, "crates", self.crate), target, ignore=shutil.ignore_patterns("out"))

    def write_specs(self, to, crate):
        folder = os.path.join(to, "crates", crate, "specs")
        os.makedirs(folder)
        files = [file for file in self.sources.specs.values() if file.crate == crate and file.module in self.modules]
        for file in files:
            path = os.path.join(folder, *file.module.split(".")[3:]) + ".antt"
            os.makedirs(os.path.dirname(path), exist_ok=True)
            shutil.copy(file.path, path)
        named = {}
        for *above, name in (file.module.split(".")[3:] for file in files):
            for k, outer in enumerate(above):
                named.setdefault(os.path.join(*above[:k]) if k else "Lib", {})[outer] = None
            named.setdefault(os.path.join(*above) if above else "Lib", {})[name] = None
        for path, names in named.items():
            with open(os.path.join(folder, path + ".antt"), "w", encoding="utf-8") as root:
                root.write("".join(f"pub mod {name}\n" for name in names))

    def write_types(self, to, crate):
        """Writes the types of a crate, each in the module in which it stands."""
        folder = os.path.join(to, "crates", crate, "src")
        os.makedirs(folder)
        texts = {"": ["#![tactic(auto)]"]}
        for item in self.types:
            if item.place.crate == crate:
                lines = texts.setdefault(item.place.module, [])
                lines += [line for line in self.type_text(item) if not line.startswith("use ") or line not in lines]
        for module in list(texts):
            while module:
                module, _, inner = module.rpartition(".")
                line = f"pub mod {inner};"
                if line not in texts.setdefault(module, []):
                    texts[module].append(line)
        for module, lines in texts.items():
            path = os.path.join(folder, *(module or "lib").split(".")) + ".rt"
            os.makedirs(os.path.dirname(path), exist_ok=True)
            with open(path, "w", encoding="utf-8") as file:
                file.write("\n".join(lines) + "\n")

    def type_text(self, item):
        """The lines of a type, all of it public, with the imports that it needs and its model."""
        lines = [line for line in item.text() if not re.match(r"\s*(//|#\[)", line)]
        lines[0] = re.sub(r"^(pub(\([^)]*\))? )?", "pub ", lines[0])
        uses = [f"use {self.path_of(other, item)};" for other in self.types
                if other.place is not item.place and other.name in item.field_types() and other is self.sources.rust_type(other.name, item.place)]
        return uses + lines + self.model_text(item)

    def path_of(self, other, item):
        crate = "crate" if other.place.crate == item.place.crate else other.place.crate
        return "::".join([crate, *[part for part in other.place.module.split(".") if part], other.name])

    def model_text(self, item):
        """The `impl Model` of a type."""
        found = []
        for k, line in enumerate(item.place.lines):
            if re.match(rf"impl(?:<[^>]*>)? Model for {item.name}\b", line):
                end = next(n for n in range(k, len(item.place.lines)) if item.place.lines[n].startswith("}"))
                found += ["use std::marker::Model;"] + item.place.lines[k:end + 1]
        return found


def bare_copy(top, crate, to):
    Bare(top, crate).write(to)
    shutil.copy(os.path.join(top, "crates.txt"), to)
