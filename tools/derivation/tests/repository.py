"""A repository in a folder of its own, for a test."""

import contextlib
import io
import os
import tempfile
import unittest

from derivation import command, read
from derivation.model import Refused


class RepositoryTest(unittest.TestCase):
    def setUp(self):
        folder = tempfile.TemporaryDirectory()
        self.addCleanup(folder.cleanup)
        self.top = folder.name
        self.addCleanup(os.chdir, os.getcwd())
        os.chdir(self.top)

    def path(self, crate, module):
        return os.path.join(self.top, "crates", crate, "src", f"{module}.rt")

    def put(self, text, module="types", crate="game"):
        """Writes a file, and answers its path."""
        path = self.path(crate, module)
        os.makedirs(os.path.dirname(path), exist_ok=True)
        with open(path, "wb") as file:
            file.write(text if isinstance(text, bytes) else text.encode("utf-8"))
        return path

    def text(self, path):
        with open(path, "rb") as file:
            return file.read().decode("utf-8")

    def module(self, text):
        return read.modules([self.put(text)])[0]

    def declaration(self, text):
        return self.module(text).declarations[0]

    def refusal(self, text, path=None):
        """What a file is refused with, without its path."""
        path = path or self.put(text)
        with self.assertRaises(Refused) as refused:
            read.modules([path])
        self.assertEqual(refused.exception.path, path)
        return f"{refused.exception.line}: {refused.exception.text}"

    def run_command(self, *arguments):
        """The status, and what is printed."""
        said = io.StringIO()
        with contextlib.redirect_stdout(said), contextlib.redirect_stderr(said):
            status = command.main(list(arguments))
        return status, said.getvalue().replace(self.top + os.sep, "")
