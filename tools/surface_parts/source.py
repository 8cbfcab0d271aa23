"""The items of a Rattle source file: what it declares and re-exports, their doc comments, and their preconditions."""
import re
import textwrap
from dataclasses import dataclass, field

from common import first_match

TOKEN = re.compile(r'''(?P<blank> \s+ | //[^\n]* | /\*.*?\*/)
    | b?r?"(?:\\.|[^"\\])*" | r\#".*?"\# | b?'(?:\\.[^']*|[^'\\])'
    | '?\w+ | -> | :: | => | \S''', re.VERBOSE | re.DOTALL)
CLOSERS = {'(': ')', '[': ']', '{': '}'}
TYPES = ('struct', 'enum', 'trait', 'type', 'const')
WIDTH = 100


@dataclass
class Member:
    """A variant or a field, as written."""
    text: str
    doc: str
    is_public: bool


@dataclass(eq=False)
class Item:
    """A declaration. `head` is what follows the name: parameters and result, what an alias is for, or the trait of an impl."""
    kind: str
    name: str
    line: int
    is_public: bool = False
    head: str = ''
    file: str = ''
    of_type: str = ''  # what an impl is for
    column: int = 0
    doc: str = ''
    attributes: list = field(default_factory=list)
    members: list = field(default_factory=list)  # the variants or fields
    requires: list = field(default_factory=list)  # pairs of a name, which may be empty, and a clause
    items: list = field(default_factory=list)  # the functions of a trait or an impl, the names of a use

    @property
    def signature(self):
        """The declaration without contract and body."""
        return laid_out(f'{"pub " * self.is_public}{self.kind} {self.name}{" " * self.head.startswith("=")}{self.head}', self.column)

    @property
    def traits(self):
        """The traits that are derived."""
        return [name for text in self.attributes if text.startswith('derive(') for name in re.findall(r'\w+', text[6:])]


@dataclass(eq=False)
class Use:
    """A name and the path that it is for."""
    name: str
    path: list
    is_public: bool


def normal(text):
    """The text on one line, as it is laid out if it fits."""
    text = re.sub(r'\s+', ' ', text).strip()
    text = re.sub(r',? ?([)>\]])(?<!->)(?<!=>)', r'\1', re.sub(r'([(<\[]) ', r'\1', text)).replace(', }', ' }')
    return without_mut(text)


def laid_out(text, column):
    """The text on one line if it fits, or else on its lines, which begin at the column. Without the `mut` of parameters."""
    one, lines = normal(text), text.split('\n')
    if len(one) <= WIDTH or len(lines) == 1:
        return one
    return without_mut('\n'.join([lines[0], *(line[column:] for line in lines[1:])]))


def without_mut(text):
    return re.sub(r'\bmut (?=\w+: )|(?<=\()mut (?=self\b)', '', text)


def comment(lines, mark):
    """The text of the lines of a doc comment that begin with `mark`."""
    return textwrap.dedent('\n'.join(line.removeprefix(mark).rstrip() for line in lines))


class Reader:
    """Goes through the tokens of a file."""

    def __init__(self, text):
        self.source, self.docs = text, {}
        self.tokens: list[re.Match] = []
        lines: list[str] = []
        for found in TOKEN.finditer(text):
            if not found['blank']:
                self.docs[len(self.tokens)], lines = lines, []
                self.tokens.append(found)
            elif re.match('///(?!/)', found[0]):
                lines.append(found[0])
        self.text = TOKEN.sub(lambda found: re.sub('.', ' ', found[0]) if found['blank'] else found[0], text)  # without comments
        self.lines = [text.count('\n', 0, token.start()) + 1 for token in self.tokens]
        self.at = 0

    def module_doc(self):
        return comment(re.findall('^//!.*', self.source, re.M), '//!')

    def peek(self, offset=0):
        at = self.at + offset
        return self.tokens[at][0] if at < len(self.tokens) else ''

    def take(self):
        self.at += 1
        return self.tokens[self.at - 1][0]

    def takes(self, *words):
        """Takes the next token if it is one of these."""
        return self.take() if self.peek() in words else ''

    def group(self):
        """Takes a group in brackets, and returns what is in it."""
        begin, closers = self.at, []
        while True:
            token = self.take()
            if token in CLOSERS:
                closers.append(CLOSERS[token])
            elif closers and token == closers[-1]:
                closers.pop()
            if not closers:
                return self.slice(begin + 1, self.at - 1)

    def slice(self, begin, end):
        return self.text[self.tokens[begin].start():self.tokens[end - 1].end()] if begin < end else ''

    def column(self, at):
        """The column of a token."""
        begin = self.tokens[at].start()
        return begin - self.source.rfind('\n', 0, begin) - 1

    def attributes(self):
        """Takes the attributes of what follows. Returns them and its doc comment."""
        lines, found = self.docs.get(self.at, []), []
        while self.takes('#'):
            self.takes('!')
            found.append(self.group())
            lines = lines + self.docs.get(self.at, [])
        return found, comment(lines, '///')

    def until(self, *stops):
        """Takes what comes before one of these that is in no brackets."""
        begin = self.at
        while self.peek() and self.peek() not in stops:
            if self.peek() in CLOSERS:
                self.group()
            else:
                self.take()
        return self.slice(begin, self.at)

    def items(self):
        """The items up to the end of the file, or of the braces that the reader is in."""
        found = []
        while self.peek() and not self.takes('}'):
            item = self.item()
            if item:
                found.append(item)
        return found

    def item(self):
        attributes, doc = self.attributes()
        if self.takes('ghost'):
            self.until(';')
            return self.take() and None
        column, is_public = self.column(self.at), self.takes_pub()
        while self.peek() in ('final', 'unsafe', 'const') and self.peek(1) in ('fn', 'impl', 'trait', 'unsafe'):
            self.take()
        line, word = self.lines[self.at], self.take()
        reads = {'use': self.use, 'fn': self.function, 'impl': self.implementation, 'mod': self.module}
        item = reads.get(word, lambda: self.type(word))()
        item.line, item.column, item.is_public, item.attributes, item.doc = line, column, is_public, attributes, doc
        for each in item.items if word == 'use' else []:
            each.is_public = is_public
        return item

    def takes_pub(self):
        """Whether the item is public, which one that is `pub(crate)` is not."""
        if not self.takes('pub'):
            return False
        if self.peek() != '(':
            return True
        self.group()
        return False

    def module(self):
        name = self.take()
        if not self.takes(';'):
            raise SyntaxError(f'the module {name} is in the file of another')
        return Item('mod', name, 0)

    def use(self):
        names = list(self.names([]))
        self.takes(';')
        return Item('use', '', 0, items=names)

    def names(self, path):
        """The names of a tree of uses."""
        if self.takes('{'):
            while not self.takes('}'):
                yield from self.names(path)
                self.takes(',')
            return
        path = [*path, self.take()]
        if self.takes('::'):
            yield from self.names(path)
            return
        if path[-1] == 'self':
            path.pop()
        name = self.take() if self.takes('as') else path[-1]
        yield Use(name, path, False)

    def function(self):
        item = Item('fn', self.take(), 0, head=self.head('requires', 'ensures', '{', ';'))
        while self.peek() in ('requires', 'ensures'):
            kind = self.take()
            name = '' if self.peek() == '{' else self.take()
            clause = self.group()
            if kind == 'requires':
                item.requires.append((name, ' '.join(clause.split())))
        self.body()
        return item

    def head(self, *stops):
        begin = self.at
        self.until(*stops)
        return self.slice(begin, self.at)

    def body(self):
        if not self.takes(';'):
            self.group()

    def implementation(self):
        """An impl: its name is that of the type, and its head the trait, if it is of one."""
        words = self.head('{')
        generics = re.match(r'<(?:[^<>]|<[^<>]*>)*>', words)
        trait, _, of_type = normal(words[generics.end() if generics else 0:]).rpartition(' for ')
        self.take()
        name = first_match(r"^(?:&('\w+ )?(mut )?)*([\w:]+)", of_type)[3].split('::')[-1]
        return Item('impl', name, 0, head=re.sub(r'^(\w+::)+', '', trait), of_type=of_type, items=self.items())

    def type(self, kind):
        if kind not in TYPES:
            raise SyntaxError(f'no item begins with `{kind}`')
        item = Item(kind, self.take(), 0)
        item.head = self.head(*{'type': ';', 'const': '=;'}.get(kind, '{(;'))
        if kind in ('struct', 'enum') and self.peek() in ('{', '('):
            item.members = list(self.members())
            self.takes(';')
        elif kind == 'trait':
            self.take()
            item.items = self.items()
        else:
            self.until(';')
            self.take()
        return item

    def members(self):
        """Takes the variants or fields that are in brackets."""
        closer = CLOSERS[self.take()]
        while not self.takes(closer):
            _, doc = self.attributes()
            is_public, begin, depth = self.takes_pub(), self.at, 0
            while depth or self.peek() not in (',', closer):
                depth += (self.peek() == '<') - (self.peek() == '>')
                self.group() if self.peek() in CLOSERS else self.take()
            text = self.source[self.tokens[begin].start():self.tokens[self.at - 1].end()]
            yield Member(re.sub(r'(?m)^ *//(?!/).*\n', '', text), doc, is_public)
            self.takes(',')


def read(path, name):
    """The items of a file, which is called by this name in messages, and its doc comment."""
    with open(path, encoding='utf-8') as file:
        reader = Reader(file.read())
    try:
        items = reader.items()
    except (SyntaxError, IndexError) as error:
        at = min(reader.at, len(reader.tokens) - 1)
        raise SystemExit(f'surface: {name}:{reader.lines[at]}: cannot be read: {error}') from error
    for item in items:
        for each in [item, *item.items]:
            each.file = name
    return items, reader.module_doc()
