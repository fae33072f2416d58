"""The examples of docs/python.md."""
import doctest
import os
import unittest
from typing import List

from .places import TOP


class Page(unittest.TestCase):
    def test_examples(self) -> None:
        before = os.getcwd()
        os.chdir(TOP)
        self.addCleanup(os.chdir, before)
        told: List[str] = []
        runner = doctest.DocTestRunner(optionflags=doctest.ELLIPSIS)
        text = (TOP / "docs" / "python.md").read_text(encoding="utf-8")
        example = doctest.DocTestParser().get_doctest(text, {}, "docs/python.md", "docs/python.md", 0)
        result = runner.run(example, out=told.append)
        self.assertEqual(result.failed, 0, "".join(told))
        self.assertGreater(result.attempted, 20)


if __name__ == "__main__":
    unittest.main()
