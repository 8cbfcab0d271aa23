"""The table 'Preconditions' of docs/PROOFS.md: the preconditions of public functions, as the sources have them."""
import re
from dataclasses import dataclass

FILE = 'docs/PROOFS.md'
BEGIN, END = '<!-- tools/surface --write: begin -->', '<!-- tools/surface --write: end -->'
HEAD = ['| call | clause | requires |', '|---|---|---|']


@dataclass
class Clause:
    """A clause `requires` of a public function."""
    path: str
    name: str
    text: str
    place: str

    def row(self):
        name = f'`{self.name}`' if self.name else ''
        return f'| `{self.path}` | {name} | `{self.text}` |'.replace('|  |', '| |')

    def __str__(self):
        return f'{self.path}: {self.name} {{ {self.text} }}'.replace(':  {', ': {')


def clauses(publics, prefix=''):
    """The clauses of these public items, by path."""
    for public in sorted(publics, key=lambda public: public.path):
        for name, text in public.item.requires:
            yield Clause(prefix + public.path, name, text, public.place)


def parts(text):
    """The text before the table, the table, and the text after it."""
    found = re.fullmatch(f'(.*{re.escape(BEGIN)}\n)(.*)({re.escape(END)}\n.*)', text, re.DOTALL)
    if not found:
        raise SystemExit(f'surface: {FILE}: the marks `{BEGIN}` and `{END}` are not there')
    return found.groups()


def written(text, found):
    """The document with the table of these clauses."""
    before, _, behind = parts(text)
    return before + '\n'.join(['', *HEAD, *(clause.row() for clause in found), '', behind])


def differences(text, found):
    """Each difference between the table and the clauses, as a line."""
    before, table, _ = parts(text)
    begin = before.count('\n') + 1
    lines = [(number, line) for number, line in enumerate(table.split('\n'), begin) if line and line not in HEAD]
    rows = {clause.row() for clause in found}
    stated = {line for _, line in lines}
    missing = [clause for clause in found if clause.row() not in stated]
    yield from (f'{clause.place}: {clause}: is not in {FILE}' for clause in missing)
    wrong = [(number, line) for number, line in lines if line not in rows]
    yield from (f'{FILE}:{number}: {line}: is not in the sources' for number, line in wrong)
    if not missing and not wrong and text != written(text, found):
        yield f'{FILE}:{begin}: the table: has rows in another order or twice'
