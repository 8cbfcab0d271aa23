"""docs/figures.csv: the ratios of every docs/FIGURES.md that was written, and those that fell since the last one."""
import os
from dataclasses import astuple, dataclass
from decimal import Decimal

from bench_parts.programs import OWN
from common import ROOT, read

HISTORY = os.path.join(ROOT, 'docs', 'figures.csv')
LEAST = Decimal('0.9')  # of the last ratio, below which a ratio fell
MARK = ' / ours'  # ends the head of a column of ratios, behind the peer's name


@dataclass(frozen=True)
class Ratio:
    """A line of docs/figures.csv, below that of the names of these fields. No field has a comma."""
    date: str
    commit: str
    processor: str
    processors: str
    table: str
    row: str
    peer: str
    ratio: str

    def kind(self):
        """What ratios have in common that are compared."""
        return self.processor, self.processors, self.table, self.row, self.peer


def tables(document):
    """The tables of a Markdown document: the heading above each, and its rows of cells."""
    title = ''
    for block in document.split('\n\n'):
        if block.startswith('## '):
            title = block[3:].strip()
        elif block.strip().startswith('|'):
            yield title, [[cell.strip() for cell in line.strip('|').split('|')] for line in block.strip().split('\n')]


def run_of(document):
    """The first fields of a run's ratios, by its docs/FIGURES.md."""
    (_, circumstances), *_ = tables(document)
    found = dict(circumstances)
    processor, processors = found['machine'].rsplit(', ', 1)
    return found['date'], found['commit'], processor, processors.split()[0]


def ratio_of(*fields):
    return Ratio(*(field.replace(',', '') for field in fields))


def ratios(document):
    """The ratios in the tables of a docs/FIGURES.md."""
    _, *others = tables(document)
    run = run_of(document)
    for title, (heads, _, *rows) in others:
        for cells in rows if OWN in heads else []:
            first = heads.index(OWN)
            row = cells[0] if first == 1 else ' '.join(f'{cell} {head}' for head, cell in zip(heads, cells[:first]))
            for head, cell in zip(heads, cells):
                if head.endswith(MARK) and cell != '-':
                    yield ratio_of(*run, title, row, head[:-len(MARK)], cell)


def known():
    """The ratios in docs/figures.csv, oldest first."""
    return [Ratio(*line.split(',')) for line in read(HISTORY).splitlines()[1:]]


def fallen(found):
    """A line for each of these ratios that fell by more than a tenth since its last one on a machine of the same kind."""
    last = {each.kind(): each for each in known()}
    for new in found:
        old = last.get(new.kind())
        if old and Decimal(new.ratio) < LEAST * Decimal(old.ratio):
            yield f'{new.table}, {new.row}: the ratio to {new.peer} fell from {old.ratio}, of {old.date} at {old.commit}, to {new.ratio}.'


def append(found):
    """Adds ratios to docs/figures.csv."""
    with open(HISTORY, 'a', encoding='utf-8') as file:
        file.writelines(f'{",".join(astuple(each))}\n' for each in found)
