"""Tests of the build of the package."""
import os
import pathlib
import subprocess
import sys
import tempfile
import unittest

FOLDER = pathlib.Path(__file__).resolve().parent.parent
CALL = 'import build_backend; build_backend.library()'


class BuildTests(unittest.TestCase):

    def build(self, path, **variables):
        """Build the library with the programs of a folder, and return the status and what is printed."""
        words = {name: value for name, value in os.environ.items() if not name.startswith('COOKIE_STORE_')}
        done = subprocess.run([sys.executable, '-B', '-c', CALL], cwd=FOLDER, env={**words, 'PATH': path, **variables},
                              capture_output=True, text=True, check=False)
        return done.returncode, done.stderr.splitlines()

    def test_no_toolchain(self):
        """Without `rt` one line says what to do."""
        with tempfile.TemporaryDirectory() as folder:
            status, lines = self.build(folder)
        self.assertEqual((status, len(lines)), (1, 1), lines)
        self.assertRegex(lines[0], r'rt is not on the path.*COOKIE_STORE_LIBRARY=FILE.*wheel')

    def test_named_archive(self):
        """An archive that is named is installed without `rt`: if there is none, a line says so."""
        status, lines = self.build('/usr/bin:/bin', COOKIE_STORE_ARCHIVE='/none')
        self.assertEqual(status, 1)
        self.assertIn('install: there is no library /none', lines)

    def test_failing_toolchain(self):
        """The messages of the installation are printed, and no trace of the build."""
        with tempfile.TemporaryDirectory() as folder:
            program = pathlib.Path(folder, 'rt')
            program.write_text('#!/bin/sh\necho not proved >&2\nexit 1\n')
            program.chmod(0o755)
            status, lines = self.build(f'{folder}:/usr/bin:/bin')
        self.assertEqual(status, 1)
        self.assertIn('not proved', ' '.join(lines))
        self.assertRegex(lines[-1], '^cookie_store: the C library is not built')
        self.assertNotIn('Traceback', ' '.join(lines))


if __name__ == '__main__':
    unittest.main()
