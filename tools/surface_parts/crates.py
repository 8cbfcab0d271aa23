"""The public items of a crate, by the paths that a user of it writes."""
import os
from dataclasses import dataclass, field

from surface_parts import source


@dataclass(eq=False)
class Public:
    """A public item, and the paths that a user may write for it."""
    item: source.Item
    paths: list = field(default_factory=list)

    @property
    def path(self):
        """The shortest path."""
        return min(self.paths, key=lambda path: path.count('::'))

    @property
    def place(self):
        return f'{self.item.file}:{self.item.line}'


class Module:
    """A module of a crate."""

    def __init__(self, crates, crate, names):
        self.crates, self.crate, self.names = crates, crate, names
        path = f'crates/{crate}/src/{"/".join(names) or "lib"}.rt'
        self.items, self.doc = source.read(os.path.join(crates.root, path), path)
        self.modules = {item.name: crates.module(crate, (*names, item.name)) for item in self.items if item.kind == 'mod'}
        self.uses = [use for item in self.items if item.kind == 'use' for use in item.items]

    def find(self, name):
        """The module or the item of this name, or None if it is of no crate of the repository."""
        if name in self.modules:
            return self.modules[name]
        for item in self.items:
            if item.name == name and item.kind not in ('mod', 'use', 'impl'):
                return item
        for use in self.uses:
            if use.name == name and use.path != [name]:
                return self.resolve(use.path)
        return None

    def resolve(self, path):
        """What a path means that is written in this module."""
        first, *rest = path
        starts = {'crate': (), 'self': self.names, 'super': self.names[:-1]}
        found = self.crates.module(self.crate, starts[first]) if first in starts else self.find(first)
        found = found or self.crates.root_of(first)
        for name in rest:
            found = found.find(name) if isinstance(found, Module) else None
        return found

    def publics(self):
        """Pairs of a name and what it names."""
        for item in self.items:
            if item.is_public and item.kind == 'mod':
                yield item.name, self.modules[item.name]
            elif item.is_public and item.kind not in ('use', 'impl'):
                yield item.name, item
        for use in self.uses:
            if use.is_public:
                yield use.name, self.resolve(use.path)


class Crates:
    """The crates of a repository."""

    def __init__(self, root):
        self.root, self.modules, self.foreign = root, {}, []
        self.module_paths = {}  # of the public modules, in the order in which they are found

    def module(self, crate, names):
        if (crate, names) not in self.modules:
            self.modules[crate, names] = Module(self, crate, names)
        return self.modules[crate, names]

    def root_of(self, crate):
        """The root module of a crate, or None if it is none of the repository's."""
        return self.module(crate, ()) if os.path.exists(f'{self.root}/crates/{crate}/src/lib.rt') else None

    def impls(self, item):
        """Pairs of a module and an impl of a type in it, those in the file of the type first."""
        found = [(module, each) for module in self.modules.values() for each in module.items
                 if each.kind == 'impl' and each.name == item.name and module.find(each.name) is item]
        return sorted(found, key=lambda pair: pair[1].file != item.file)

    def methods(self, item):
        """The public methods of a type or a trait."""
        if item.kind == 'trait':
            return [each for each in item.items if each.kind == 'fn']
        impls = [each for _, each in self.impls(item) if not each.head]
        return [each for one in impls for each in one.items if each.is_public and each.kind in ('fn', 'const')]

    def surface(self, crate):
        """The public items of a crate."""
        found: dict[str, Public] = {}
        self.visit(self.root_of(crate), '', found, ())
        return list(found.values())

    def visit(self, module, prefix, found, above):
        self.module_paths.setdefault(module, []).append(prefix.removesuffix('::'))
        for name, target in module.publics():
            path = prefix + name
            if isinstance(target, Module):
                if target not in above:
                    self.visit(target, f'{path}::', found, (*above, module))
            elif target is None:
                self.foreign.append(path)
            else:
                self.add(target, path, found)

    def add(self, item, path, found):
        public = found.setdefault(id(item), Public(item))
        if path not in public.paths:
            public.paths.append(path)
        for method in self.methods(item) if item.kind in source.TYPES else []:
            self.add(method, f'{path}::{method.name}', found)
