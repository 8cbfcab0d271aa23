"""The lists of docs/API.md: what a user can name of a crate, by module, with signatures and doc comments.

Headings link to the source; signatures are without contracts. Links between comments become links to headings, or plain code
if what they name is not public. A heading in a comment becomes bold text."""
import re

from common import anchors, first_match
from surface_parts.crates import Module

WITHOUT = ('Drop', 'Model')  # traits that a user does not call
CODE = re.compile(r'(^```.*?^```$)', re.MULTILINE | re.DOTALL)
LINK = re.compile(r'\[(`[\w:]+(?:\(\))?`)\](?![(\[])|\[([^\]]+)\]\(([\w:]+)\)')


def parent(path):
    return path.rpartition('::')[0]


def shortest(paths):
    return min(paths, key=lambda path: path.count('::'))


def without_links(text):
    return LINK.sub(lambda found: found[1] or found[2], text)


def declaration(item):
    """The signature, with variants and public fields."""
    shown = [each for each in item.members if item.kind == 'enum' or each.is_public]
    if not item.members:
        return item.signature
    if not shown:
        return item.signature + ' { /* private fields */ }'
    lines = [line for each in shown for line in member(each)]
    lines += ['    // private fields'] * (len(shown) < len(item.members))
    is_tuple = item.kind == 'struct' and not re.match(r'\w+:(?!:)', item.members[0].text)
    begin, end = ('(', ')') if is_tuple else (' {', '}')
    return '\n'.join([item.signature + begin, *lines, end])


def deprecation(item):
    """What the attribute `deprecated` states, or an empty text."""
    text = next((each for each in item.attributes if each.startswith('deprecated')), '')
    note = re.search(r'"(.*)"', text)
    return f'Deprecated: {note[1]}.' if note else 'Deprecated.' * bool(text)


def member(each):
    """The lines of a variant or a field."""
    yield from (f'    /// {line}'.rstrip() for line in without_links(each.doc).split('\n') if each.doc)
    yield f'    {"pub " * each.is_public}{without_links(each.text)},'


def trait(impl):
    """The trait of an impl with its types, and what it is for if that is a reference."""
    types = [each.signature.removeprefix('type ') for each in impl.items if each.kind == 'type']
    name, _, generics = impl.head.removesuffix('>').partition('<')
    arguments = ', '.join([*filter(None, [generics]), *types])
    behind = f' for `{impl.of_type}`' * impl.of_type.startswith('&')
    return f'`{name}<{arguments}>`{behind}' if arguments else f'`{name}`{behind}'


class Page:
    """The public items of a crate that its sources do not hide."""

    def __init__(self, crates, crate):
        self.crates, self.crate = crates, crate
        self.publics = [each for each in crates.surface(crate) if 'doc(hidden)' not in each.item.attributes]
        self.by_item = {each.item: each for each in self.publics}
        self.by_path = {path: each for each in self.publics for path in each.paths}
        self.modules = {module: shortest(paths) for module, paths in crates.module_paths.items()}
        targets = list(self.targets())
        self.anchors = dict(zip(targets, anchors('\n'.join(f'# {self.heading(each)}' for each in targets))))

    def targets(self):
        """What has a heading: each module, the items whose shortest path is in it, and their methods."""
        for module, path in self.modules.items():
            yield module
            for public in self.within(path):
                yield from [public, *self.within(public.path)] if parent(public.path) == path else []

    def within(self, prefix):
        """The public items that have a path in a module, or the methods of a type."""
        return [each for each in self.publics if prefix in map(parent, each.paths)]

    def heading(self, target):
        if isinstance(target, Module):
            path = self.modules[target]
            return f'Module `{path}`' if path else f'Crate `{self.crate}`'
        return f'`{target.path}`'

    def lines(self):
        """The lists."""
        for target in self.anchors:
            yield from self.module(target) if isinstance(target, Module) else self.item(target)

    def without_comment(self):
        """The paths of what has no doc comment."""
        return [each.path for each in self.publics if not each.item.doc]

    def module(self, module):
        yield from [f'## {self.heading(module)}', '', *self.comment(module.doc, module)]
        path = self.modules[module]
        yield from self.index('Modules', [each for each, name in self.modules.items() if name and parent(name) == path])
        yield from self.index('Items', self.within(path))

    def item(self, public):
        item, level = public.item, '####' if self.owner(public) else '###'
        yield from [f'{level} [{self.heading(public)}](../{item.file})', '', '```rust', declaration(item), '```', '']
        yield from self.comment(item.doc, self.module_of(item), self.owner(public) or public)
        yield from self.facts(public)
        yield from self.index('Calls', self.within(public.path))

    def index(self, title, targets):
        """A line of links, if there are any."""
        links = [self.link(f'`{self.name(each)}`', each) for each in targets]
        yield from [f'{title}: {", ".join(links)}.', ''] if links else []

    def name(self, target):
        return (self.modules[target] if isinstance(target, Module) else target.path).split('::')[-1]

    def facts(self, public):
        """Whether the item is deprecated and has preconditions, its traits and its other paths."""
        yield from [deprecation(public.item), ''] if deprecation(public.item) else []
        yield from ['It has [preconditions](PROOFS.md#preconditions).', ''] if public.item.requires else []
        impls = list(self.impls(public.item))
        derived = [f'`{name}`' for name in public.item.traits if name not in WITHOUT]
        traits = dict.fromkeys([*derived, *(trait(each) for _, each in impls)])
        paths = [f'`{each}`' for each in public.paths if each != public.path and not self.owner(public)]
        yield from [f'Has {", ".join(traits)}.', ''] if traits else []
        for module, each in impls:
            yield from self.comment(f'{trait(each)}: {each.doc}' if each.doc else '', module, public)
        yield from [f'Also {", ".join(paths)}.', ''] if paths else []

    def impls(self, item):
        """Pairs of a module and an impl of a trait, but for traits that only the repository can name."""
        for module, each in self.crates.impls(item):
            names = re.findall(r'[\w:]+', each.head)
            if names and names[0] not in WITHOUT and not any(self.is_private(name, module) for name in names):
                yield module, each

    def is_private(self, path, module):
        """Whether the path is that of an item of the repository that a user cannot name."""
        found = module.resolve(path.split('::'))
        return found is not None and found not in self.by_item

    def owner(self, public):
        """The type or trait of a method, or None."""
        return self.by_path.get(parent(public.path))

    def module_of(self, item):
        crate, path = first_match(r'^crates/(\w+)/src/(.*)\.rt$', item.file).groups()
        return self.crates.module(crate, tuple(path.split('/')) if path != 'lib' else ())

    def comment(self, text, module, owner=None):
        """The lines of a doc comment, which names things as `module` and the type `owner` do."""
        if text:
            parts = CODE.split(text)
            yield from [''.join(self.code(part) if at % 2 else self.words(part, module, owner) for at, part in enumerate(parts)), '']

    def code(self, text):
        return re.sub(r'\A```$', '```rust', text, flags=re.MULTILINE)

    def words(self, text, module, owner):
        text = LINK.sub(lambda found: self.link(found[1] or found[2], self.resolve(found[3] or found[1], module, owner)), text)
        return re.sub(r'^#+ (.*)', r'**\1**', text, flags=re.MULTILINE)

    def link(self, text, target):
        return f'[{text}](#{self.anchors[target]})' if target in self.anchors else text

    def resolve(self, path, module, owner):
        """What has a heading and this name, or else the type whose variant or field it is, or None."""
        first, *rest = re.findall(r'\w+', path)
        if first == 'Self' and owner:
            return self.by_path.get('::'.join([owner.path, *rest]), owner)
        found = module.resolve([first, *rest])
        if found is None and rest and (owner := self.by_item.get(module.resolve([first, *rest[:-1]]))):
            return self.by_path.get(f'{owner.path}::{rest[-1]}', owner)
        return found if isinstance(found, Module) else self.by_item.get(found)
