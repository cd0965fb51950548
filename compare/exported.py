"""Functions of this repository as a static library that Rust can link.

The functions named in leaf/*.rt.txt are exported from a crate of their own, a static library, which
`rt lib` proves and builds. It stands in a temporary repository, since every `.rt` file here belongs to
a listed crate."""
import shutil
import subprocess
import tempfile
from pathlib import Path

import beside


def library(archive, only=None, root=beside.ROOT):
    """Writes the library of all leaf functions, or of those of one crate, whose crate is in the
    repository at root; None where none is."""
    crates = repository(root)
    files = {f.name.removesuffix(".rt.txt"): f for f in sorted((beside.HERE / "leaf").glob("*.rt.txt"))}
    files = {name: f for name, f in files.items() if name in crates and only in (None, name)}
    if not files:
        return None
    needed, todo = set(), list(files)
    while todo:
        name = todo.pop()
        if name in crates and name not in needed:
            needed.add(name)
            todo += crates[name]
    archive.parent.mkdir(parents=True, exist_ok=True)
    with tempfile.TemporaryDirectory() as place:
        scratch = Path(place)
        source(root, scratch, {name: deps for name, deps in crates.items() if name in needed}, files.values())
        leaf = scratch / "crates/leaf"
        done = subprocess.run(["rt", "lib"], cwd=leaf, capture_output=True, text=True)
        if done.returncode:
            raise SystemExit(f"compare: `rt lib` of {', '.join(files)} failed\n{(done.stdout + done.stderr)[-2000:]}")
        shutil.copy(leaf / "out/libleaf.a", archive)
    return archive


def repository(root):
    """The crates of a repository: name and dependencies."""
    lines = (line.partition("#")[0] for line in (root / "crates.txt").read_text().splitlines())
    pairs = (line.split(":") for line in lines if ":" in line)
    return {name.split()[0]: deps.split() for name, deps in pairs}


def source(root, scratch, crates, files):
    """The scratch repository: the crates, what is already proved of them, and the leaf functions."""
    for name in crates:
        crate, copy = root / "crates" / name, scratch / "crates" / name
        shutil.copytree(crate, copy, ignore=shutil.ignore_patterns("out"))
        if (crate / "out/rlib").is_dir():
            shutil.copytree(crate / "out/rlib", copy / "out/rlib")
    (scratch / "crates/leaf/src").mkdir(parents=True)
    lines = [" ".join([f"{name}:", *deps]) for name, deps in crates.items()]
    (scratch / "crates.txt").write_text("\n".join(lines + [f"leaf staticlib: {' '.join(crates)}"]) + "\n")
    text = ["#![tactic(auto)]\n", *(f.read_text() for f in files)]
    (scratch / "crates/leaf/src/lib.rt").write_text("\n".join(text))
