"""Programs of a few lines over the crates, which are proved and built in a copy of the repository."""
import os
import shutil
import subprocess

from common import copy_repository, write


def built(folder, lists, sources, prepare=lambda name, folder: None):
    """The programs of these sources, by name: those that the folder `lists` has, and the others built now and put there."""
    kept = os.path.realpath(lists or folder)
    found = {name: os.path.join(kept, name) for name in sources}
    missing = [name for name, path in found.items() if not os.path.exists(path)]
    if missing:
        os.makedirs(kept, exist_ok=True)
        copy_repository(folder, 'incremental')
    for name in missing:
        shutil.copy2(build(folder, name, sources[name], prepare), found[name])
    return found


def build(repository, name, source, prepare):
    """The program of a source, built in the copy of the repository."""
    with open(os.path.join(repository, 'crates.txt'), 'a') as listed:
        listed.write(f'{name}: cookie_store jiff url\n')
    folder = os.path.join(repository, 'crates', name)
    os.makedirs(os.path.join(folder, 'src'))
    write(os.path.join(folder, 'src', 'main.rt'), source)
    prepare(name, folder)
    subprocess.run(['rt', 'run'], cwd=folder, check=True, capture_output=True)
    return os.path.join(folder, 'out', name)
