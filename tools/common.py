"""What the Python tools share: the repository's files, the parser of arguments, compiling, copying, processor time, machine and commit."""
import argparse
import os
import platform
import re
import resource
import shutil
import subprocess
import sys

TOOLS = os.path.dirname(os.path.abspath(__file__))
ROOT = os.path.dirname(TOOLS)
PROGRAM = os.path.realpath(os.environ.get('COOKIE_JAR') or f'{ROOT}/crates/cookie_jar/out/cookie_jar')
COOKIES = os.path.realpath(os.environ.get('COOKIES') or f'{ROOT}/crates/cookies/out/cookies')
SESSION = os.path.realpath(os.environ.get('DURABLE_SESSION') or f'{ROOT}/crates/durable_session/out/durable_session')
ARCHIVE = os.path.realpath(os.environ.get('COOKIE_STORE_ARCHIVE') or f'{ROOT}/crates/cookie_store_c/out/libcookie_store_c.a')
TOOL = os.path.basename(sys.argv[0])


class Parser(argparse.ArgumentParser):
    """Prints `text`, which has the usage, and the options for --help. A wrong argument is one line on standard error, and status 2."""

    def __init__(self, text, prog=f'tools/{TOOL}'):
        super().__init__(prog=prog, usage=argparse.SUPPRESS, description=text, formatter_class=argparse.RawDescriptionHelpFormatter,
                         allow_abbrev=False)

    def error(self, message):
        self.exit(2, f'{TOOL}: {message} (see {self.prog} --help)\n')


def stop(message):
    sys.exit(f'{TOOL}: {message}')


def read(path):
    with open(path, encoding='utf-8') as file:
        return file.read()


def first_match(pattern, text, flags=0):
    """The first match of a pattern that the text must have."""
    return re.search(pattern, text, flags) or stop(f'no match of {pattern}')


def write(path, text):
    with open(path, 'w', encoding='utf-8') as file:
        file.write(text)


def anchors(text):
    """The anchors that Markdown gives the headings of a document, in their order."""
    known: dict[str, int] = {}
    for heading in re.findall(r'^#+ (.*)', re.sub(r'^ *```.*?^ *```$', '', text, flags=re.M | re.S), re.M):
        heading = re.sub(r'\[([^\]]*)\]\([^)]*\)', r'\1', heading)
        name = re.sub(r'[^\w -]', '', heading.lower()).replace(' ', '-')
        known[name] = known.get(name, -1) + 1
        yield f'{name}-{known[name]}' if known[name] else name


def crates():
    """The names in crates.txt, lowest first."""
    return re.findall(r'^(\w+)', read(f'{ROOT}/crates.txt'), re.M)


def line_of(crate):
    """The line of crates.txt that names a crate."""
    return first_match(rf'^{crate}\b.*', read(f'{ROOT}/crates.txt'), re.M)[0]


def below(crate):
    """A crate and those of the repository that it uses, directly or through others, lowest first."""
    needed = {crate}
    for name in reversed(crates()):
        if name in needed:
            needed.update(line_of(name).partition(':')[2].split())
    return [name for name in crates() if name in needed]


def copy_repository(folder, *ignored):
    """Copies the crates and what was built of them, without mutants and names that match `ignored`."""
    shutil.copytree(f'{ROOT}/crates', f'{folder}/crates', ignore=shutil.ignore_patterns('*.edit', *ignored))
    for name in ('crates.txt', 'HANDLES'):
        shutil.copy(f'{ROOT}/{name}', folder)


def c_compiler():
    """The path of a C compiler, or None."""
    return next(filter(None, map(shutil.which, ('clang', 'cc', 'gcc'))), None)


def compile_c(path, *arguments):
    """Compiles a C program into `path`, which it returns. Paths in `arguments` may begin at the repository's root."""
    if subprocess.run([c_compiler() or stop('there is no C compiler'), '-O2', '-o', path, *arguments], cwd=ROOT).returncode:
        stop(f'{os.path.basename(path)} does not compile')
    return path


def install(prefix, archive=None):
    """Installs the C library and the Python package, from an archive if there is one."""
    variables = {**os.environ, **({'COOKIE_STORE_ARCHIVE': archive} if archive else {})}
    if subprocess.run([f'{TOOLS}/install', prefix], env=variables, stdout=subprocess.DEVNULL).returncode:
        stop('the library is not installed')


def output(*command, cwd=ROOT):
    """What a command prints, or '' if it is missing or fails."""
    try:
        done = subprocess.run(command, cwd=cwd, stdout=subprocess.PIPE, stderr=subprocess.DEVNULL, text=True)
    except OSError:
        return ''
    return done.stdout.strip() if done.returncode == 0 else ''


def machine():
    """The processor's name and the number of processors."""
    with open('/proc/cpuinfo') as lines:
        models = [line.split(':')[1].strip() for line in lines if line.startswith('model name')]
    return f'{models[0] if models else platform.machine()}, {os.cpu_count()} processors'


def commit():
    """The commit, and whether other files than those that are written from figures differ from it."""
    written = ('docs/FIGURES.md', 'docs/speed.svg', 'docs/figures.csv', 'CONTRIBUTING.md')
    changed = output('git', 'status', '--porcelain', '--', '.', *(f':!{path}' for path in written))
    return f'{output("git", "rev-parse", "--short", "HEAD")}, {"with uncommitted changes" if changed else "clean"}'


def timed(command, **options):
    """Runs a command. Returns the result of `subprocess.run`, and the processor time, user and system, in seconds."""
    before = resource.getrusage(resource.RUSAGE_CHILDREN)
    done = subprocess.run(command, **options)
    after = resource.getrusage(resource.RUSAGE_CHILDREN)
    return done, after.ru_utime + after.ru_stime - before.ru_utime - before.ru_stime


def processor_seconds(command, **options):
    """The processor time of a command. Stops if the command fails."""
    done, seconds = timed(command, stdout=subprocess.DEVNULL, **options)
    if done.returncode:
        stop(f'{command[0]} failed with status {done.returncode}')
    return seconds
