"""Tables of figures, as text and as Markdown, the document and the chart."""
import datetime
import json
import os
import platform
import sys
import textwrap
from dataclasses import dataclass, field

from bench_parts.others import BEHIND, MINUTES, RATIOS
from common import ROOT, commit, machine, output

IDLE = 0.5  # the greatest load average of an idle machine
SLOWEST = 0.95  # the least ratio to a peer that is not behind it, since figures differ by some percent from run to run


@dataclass
class Table:
    title: str
    note: str
    columns: list
    rows: list
    warnings: list = field(default_factory=list)
    behind: list = field(default_factory=list)  # warnings that count on an idle machine

    def text(self):
        lines = [self.columns, *self.rows]
        first, *others = (max(map(len, column)) for column in zip(*lines))
        form = '  '.join([f'{{:{first}}}', *(f'{{:>{width}}}' for width in others)])
        return '\n'.join([self.title, *(form.format(*line) for line in lines), *self.warnings, *self.behind, ''])

    def markdown(self):
        heads = ['---', *['---:'] * (len(self.columns) - 1)]
        lines = [f'| {" | ".join(line)} |' for line in (self.columns, heads, *self.rows)]
        return '\n'.join([f'## {self.title}', '', paragraph(self.note), '', *lines, *paragraphs([*self.warnings, *self.behind]), ''])


def paragraph(text):
    return textwrap.fill(text, 100, break_long_words=False, break_on_hyphens=False)


def paragraphs(texts):
    """Each behind an empty line."""
    return [f'\n{paragraph(text)}' for text in texts]


def number(value):
    """A figure with three digits, or '-' if there is none."""
    if value is None:
        return '-'
    if abs(value) < 1:
        return f'{value:.3g}'
    return f'{value:,.{0 if abs(value) >= 100 else 1 if abs(value) >= 10 else 2}f}'


def ratio(peer, own):
    """The peer's figure divided by ours; a figure may be 0 or less if it is below what can be measured."""
    value = peer / own if own > 0 else None
    if value is None or value >= 1:
        return number(value)
    return f'{value:.2f}' if value >= 0.1 else f'{value:#.2g}'


def behind(figure, peer, value, least=SLOWEST):
    """A warning if the ratio is below the least one, by default if the peer is faster or smaller by more than figures differ from run
    to run. A command that `stores --write` runs records the ratio."""
    if value is not None and RATIOS in os.environ:
        with open(os.environ[RATIOS], 'a', encoding='utf-8') as file:
            file.write(f'{json.dumps([figure, peer, f"{value:.2f}"])}\n')
    if value is not None and value < least:
        yield f'{BEHIND}{peer} is ahead: {figure}, ratio {value:.2f}.'


def fails(warnings, load):
    """Whether warnings that a peer is ahead count: the machine was idle."""
    return bool(warnings) and load <= IDLE


def exit_after(warnings, load):
    """Prints the warnings, and exits with status 1 if they count."""
    for warning in warnings:
        print(warning)
    sys.exit(fails(warnings, load))


def busy(load):
    """A warning if something else was running."""
    if load > IDLE:
        yield f'Warning: the load average at the start was {load:.2f}. Measure on an idle machine.'


def circumstances(programs, load):
    """What was measured, where and when, as rows."""
    return [
        ['date', datetime.date.today().isoformat()],
        ['machine', machine()],
        ['load average at the start', f'{load:.2f}'],
        ['system', f'{platform.system()} {platform.release()}'],
        ['commit', commit()],
        ['toolchain', output('rt', 'version') or 'unknown'],
        *([program.name, program.version] for program in programs),
    ]


HEAD = '''# Figures

`tools/bench --write` writes this file and [speed.svg](speed.svg). Each program runs the same
scripts.

- A time is processor time, user and system, of the whole process, less that of the script without
  the measured lines. Reading the line and parsing the URL are part of it.
- It is the best of five interleaved runs, or of fewer if they take more than 15 seconds. All run on,
  up to fifteen times, while one was faster in its last four runs than before, by a twentieth.
- A ratio is the peer's figure divided by ours: above 1, ours is faster or smaller.
- All figures are of one run on one machine. Compare the ratios, not the times, with those of
  another.
- [figures.csv](figures.csv) has the ratios of each run, one a line, without the commas of numbers
  and names; those of the other commands have the command for their table. `tools/bench --write`
  appends them. If one fell by more than a tenth since the last run on such a machine (processor, and
  number of them), nothing is written, or of another command no ratio is appended, unless `--accept`
  is given.
'''

REPEAT = '''
## How to repeat it

On Debian:

```sh
apt-get install cargo librust-cookie-store-dev librust-cookie-dev librust-publicsuffix-dev \\
    librust-ron-dev golang-go valgrind time
(cd crates/cookie_jar && rt run < stdin)    # builds the program
tools/bench --write                         # on an idle machine
```

A peer or a tool that is missing is left out. Four of the other commands need builds of their own:

```sh
(cd crates/cookie_store_c && rt lib)       # the library, or another one by --archive FILE
(cd crates/durable_session && rt run -- "$(mktemp -d)/cookies.sqlite" < stdin)
tools/bench lists 1 --lists FOLDER         # some ten minutes
tools/bench header --lists FOLDER          # some ten more
tools/bench --write --lists FOLDER
```
'''

OTHERS = f'''
## Other commands

`requests` and `convert` run the program that the tables above measure. A command that takes more
than {MINUTES} minutes is stopped.'''


@dataclass
class Document:
    """docs/FIGURES.md."""
    rows: list  # what was measured, where and when
    notices: list  # what is missing, or may distort the figures
    tables: list = field(default_factory=list)
    sections: list = field(default_factory=list)  # the other commands, and what they printed

    def text(self):
        """What precedes the tables."""
        return '\n'.join([*map(': '.join, self.rows), *self.notices, ''])

    def markdown(self):
        rows = ['| | |', '|---|---|', *(f'| {name} | {value} |' for name, value in self.rows)]
        lines = [*rows, *paragraphs(self.notices), *(f'\n{table.markdown()[:-1]}' for table in self.tables)]
        if self.sections:
            lines += [OTHERS]
        lines += [f'\n### `{command}`\n\n```text\n{text}\n```' for command, text in self.sections]
        return '\n'.join([HEAD, *lines, REPEAT])

    def write(self):
        write(os.path.join(ROOT, 'docs', 'FIGURES.md'), self.markdown())


def write(path, text):
    """The old file stays until the new one is whole."""
    with open(f'{path}.part', 'w') as file:
        file.write(text)
    os.replace(f'{path}.part', path)


STYLE = '''text { font: 13px sans-serif; fill: #24292f; } .title { font-weight: bold; }
.bar0 { fill: #1f77b4; } .bar1 { fill: #d9822b; } .bar2 { fill: #6b9e3f; }
@media (prefers-color-scheme: dark) { text { fill: #e6edf3; } }'''
WIDTH, LABEL, BAR, ROW = 720, 110, 480, 20


def write_chart(panels):
    """A panel of bars for each (title, [(name, microseconds)]), each to its own scale."""
    drawn, y = [], 24
    for title, bars in panels:
        drawn.append(f'<text class="title" x="10" y="{y}">{title}</text>')
        longest = max(value for _, value in bars)
        for at, (name, value) in enumerate(bars):
            y += ROW
            length = max(1, round(BAR * value / longest))
            drawn.append(f'<text x="10" y="{y}">{name}</text>'
                         f'<rect class="bar{at}" x="{LABEL}" y="{y - 12}" width="{length}" height="14"/>'
                         f'<text x="{LABEL + length + 6}" y="{y}">{number(value)} µs</text>')
        y += ROW + 14
    drawn.append(f'<text x="10" y="{y}">Processor time, shorter is faster. Each group has its own scale.</text>')
    head = (f'<svg xmlns="http://www.w3.org/2000/svg" width="{WIDTH}" height="{y + 10}" '
            f'viewBox="0 0 {WIDTH} {y + 10}" role="img" aria-label="Time of a set and of a get">')
    write(os.path.join(ROOT, 'docs', 'speed.svg'), '\n'.join([head, f'<style>{STYLE}</style>', *drawn, '</svg>', '']))
