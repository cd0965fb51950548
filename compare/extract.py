"""Takes pieces of the Rust sources, unchanged, by name. A piece not found stops with its name."""
import re
import sys
from pathlib import Path


class Source:
    """One Rust file; each method gives text exactly as it stands there."""

    def __init__(self, folder, name):
        self.name = name
        path = Path(folder) / name
        if not path.is_file():
            stop(f"{path}: no such file")
        self.text = path.read_text()

    def function(self, name):
        """A function with its doc comments, attributes and body."""
        found = re.search(rf"^[ \t]*(?:pub(?:\([a-z]+\))? )?fn {name}\b", self.text, re.M)
        if not found:
            self.missing(f"fn {name}")
        return self._with_lead(found.start(), self._past_braces(found.start(), f"fn {name}"))

    def constant(self, name):
        """A const or static with its doc comments and attributes."""
        found = re.search(rf"^(?:pub(?:\([a-z]+\))? )?(?:const|static) {name}:", self.text, re.M)
        if not found:
            self.missing(f"const {name}")
        return self._with_lead(found.start(), self._past_semicolon(found.start()))

    def missing(self, piece):
        stop(f"{self.name}: `{piece}` not found")

    def _with_lead(self, start, end):
        lines = self.text[:start].split("\n")
        n = len(lines) - 1
        while n > 0 and re.match(r"\s*(///|#\[|// internal)", lines[n - 1]):
            n -= 1
        return self.text[len("\n".join(lines[:n])) + (n > 0) : end] + "\n"

    def _past_braces(self, start, piece):
        depth = 0
        for at, ch in code(self.text, start):
            if ch == "{":
                depth += 1
            elif ch == "}":
                depth -= 1
                if depth == 0:
                    return at + 1
        self.missing(piece)

    def _past_semicolon(self, start):
        depth = 0
        for at, ch in code(self.text, start):
            if ch in "([{":
                depth += 1
            elif ch in ")]}":
                depth -= 1
            elif ch == ";" and depth == 0:
                return at + 1
        self.missing(self.text[start : start + 40])


def code(text, start=0):
    """The characters of Rust text that are not in a comment or a string, with their places."""
    at = start
    while at < len(text):
        if text.startswith("//", at):
            at = text.find("\n", at)
            if at < 0:
                return
        elif text[at] == '"':
            at += 1
            while text[at] != '"':
                at += 2 if text[at] == "\\" else 1
        yield at, text[at]
        at += 1


def between(text, first, last, what):
    """The part of text from the line holding `first` up to the line holding `last`, left out.
    `first` must stand once; `last` is the first one after it."""
    if text.count(first) != 1:
        stop(f"{what}: `{first}` stands {text.count(first)} times, not once")
    begin = text.rfind("\n", 0, text.index(first)) + 1
    end = text.find(last, begin + len(first))
    if end < 0:
        stop(f"{what}: `{last}` not found after `{first}`")
    return text[begin : text.rfind("\n", 0, end) + 1]


def block(text, first, what):
    """The statement that begins with `first` (which must stand once), to the end of its braces,
    an `else` branch included."""
    if text.count(first) != 1:
        stop(f"{what}: `{first}` stands {text.count(first)} times, not once")
    begin = text.index(first)
    depth = 0
    for at, ch in code(text, begin):
        if ch == "{":
            depth += 1
        elif ch == "}":
            depth -= 1
            if depth == 0 and not re.match(r"\}\s*else\b", text[at:]):
                return text[begin : at + 1] + "\n"
    stop(f"{what}: the braces of `{first}` don't close")


def replace(text, old, new, times, what):
    """Text with `old` replaced; it must stand exactly `times` times."""
    if text.count(old) != times:
        stop(f"{what}: `{old}` stands {text.count(old)} times, not {times}")
    return text.replace(old, new)


def stop(message):
    sys.exit(f"compare: {message}")
