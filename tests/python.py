"""Runs the tests of python/tests with a program: python.py PROGRAM, in the repository's folder.

The last line is 'N passed, M failed', and the status is 0 where none failed."""
import os
import shutil
import subprocess
import sys
import unittest


def types_are_right():
    """Whether mypy has nothing to say of the package and of the examples that are typed, or isn't there."""
    if shutil.which("mypy") is None:
        print("skipped: the types of the package and of the examples need mypy")
        return True
    there = {**os.environ, "MYPYPATH": "python:examples:examples/collectors"}
    what = ["-p", "aspaview", "-p", "tests", "-p", "page_parts"]
    for name in "asrel", "attests", "job", "merge", "page", "watch":
        what += ["-m", name]
    done = subprocess.run(["mypy", "--strict", "--cache-dir", os.devnull, *what], env=there, encoding="utf-8", stdout=subprocess.PIPE, check=False)
    if done.returncode:
        print(f"failed: the types of the package and the examples\n{done.stdout}")
    return done.returncode == 0


def main():
    os.environ["ASPAVIEW"] = os.path.abspath(sys.argv[1])
    sys.path.insert(0, os.path.abspath("python"))
    suite = unittest.defaultTestLoader.discover("python/tests", top_level_dir="python")
    count = suite.countTestCases() + 1
    result = unittest.TextTestRunner(stream=sys.stdout, verbosity=1).run(suite)
    # A test may fail in several of its cases, and counts once.
    failed = {getattr(test, "test_case", test).id() for test, _ in result.failures + result.errors} | set(result.unexpectedSuccesses)
    failures = len(failed) + (not types_are_right())
    print(f"{max(count - failures, 0)} passed, {failures} failed")
    return 1 if failures else 0


if __name__ == "__main__":
    sys.exit(main())
