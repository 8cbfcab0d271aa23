"""The other commands of tools/bench, which `stores --write` runs."""
import contextlib
import json
import os
import signal
import subprocess
import tempfile

from common import ROOT, read

MINUTES = 8  # after which a command is stopped
BEHIND = 'Warning: '  # begins the lines of a command that found a peer ahead, and has printed its figures
RATIOS = 'BENCH_RATIOS'  # the variable that names the file of a command's ratios: a figure, a peer and a ratio in JSON a line
COMMANDS = [f'tools/bench {words}' for words in
            ('requests 50 20 2000', 'convert 10000 100000', 'durable', 'bindings', 'sites', 'lists 10000', 'header')]


def environment(program, archive, lists):
    """The variables by which the commands find their programs."""
    found = {'COOKIE_JAR': program, 'COOKIE_STORE_ARCHIVE': archive, 'COOKIE_LISTS': lists}
    return {**os.environ, **{name: os.path.realpath(path) for name, path in found.items() if path}}


def measured(command, variables):
    """What the command prints, and the ratios that it records."""
    with tempfile.NamedTemporaryFile('w+', encoding='utf-8') as file:
        printed = run(command, {**variables, RATIOS: file.name})
        return printed, list(map(json.loads, read(file.name).splitlines()))


def run(command, variables):
    """What the command prints, or a line that says why there is nothing."""
    archive = variables['COOKIE_STORE_ARCHIVE']
    if command in ('tools/bench bindings', 'tools/bench sites') and not os.path.exists(archive):
        return f'not run: {os.path.basename(archive)} is not built'
    try:
        tool = subprocess.Popen(command.split(), cwd=ROOT, env=variables, stdout=subprocess.PIPE,
                                stderr=subprocess.STDOUT, text=True, start_new_session=True)
    except OSError as error:
        return f'not run: {error.strerror}'
    try:
        printed, _ = tool.communicate(timeout=MINUTES * 60)
    except subprocess.TimeoutExpired:
        stop(tool)
        return f'stopped: it took more than {MINUTES} minutes'
    except KeyboardInterrupt:
        stop(tool)
        raise
    if tool.returncode and BEHIND not in printed:
        return f'failed with status {tool.returncode}: {(printed.strip().splitlines() or ["it printed nothing"])[-1]}'
    return printed.strip()


def stop(tool):
    """Stops the command and all that it started, after some time to remove its files."""
    for number in (signal.SIGINT, signal.SIGKILL):
        with contextlib.suppress(ProcessLookupError):
            os.killpg(tool.pid, number)
        with contextlib.suppress(subprocess.TimeoutExpired):
            tool.communicate(timeout=20)
            return
