"""Tests counted: a line for each that failed, and the count as the last line."""

import os
import tempfile


class Count:
    def __init__(self):
        self.passed = self.failed = 0

    def test(self, name, good, word=""):
        if good:
            self.passed += 1
        else:
            self.failed += 1
            print(f"failed: {name}: {word}" if word else f"failed: {name}")

    def all(self, tests):
        """Tests as pairs: what each is about, and what is wrong."""
        for name, words in tests:
            self.test(name, not words, ", ".join(words))

    def end(self):
        """Prints the count and gives the exit code."""
        print(f"{self.passed} passed, {self.failed} failed")
        return 1 if self.failed else 0


def made_up(tree, tests, wanted):
    """A script's tests on a made-up tree, files by path, as a test that these fail and no others."""
    with tempfile.TemporaryDirectory() as root:
        for path, text in tree.items():
            os.makedirs(os.path.dirname(os.path.join(root, path)), exist_ok=True)
            with open(os.path.join(root, path), "w", encoding="utf-8") as file:
                file.write(text)
        failures = [(name, words) for name, words in tests(root) if words]
    return "the made-up tree", [f"gives {failures}"] if failures != wanted else []
