"""The operations of the case protocol, as ops.txt lists them, and whether all that name them agree."""
import re
from collections import namedtuple
from pathlib import Path

HERE = Path(__file__).resolve().parent
ROOT = HERE.parent

Op = namedtuple("Op", "number group words_in words_out file function")


def read():
    listed = {}
    for line in (HERE / "ops.txt").read_text().splitlines():
        if line and not line.startswith("#"):
            number, group, words_in, words_out, file, function = line.split(maxsplit=5)
            if int(number) in listed:
                raise SystemExit(f"ops.txt: {number} stands twice")
            listed[int(number)] = Op(int(number), group, int(words_in), int(words_out), file, function)
    return listed


OPS = read()
GROUPS = list(dict.fromkeys(op.group for op in OPS.values()))


def rust():
    """The rows of the Rust tool's table: number, words in, words out."""
    return "".join(f"    ({op.number}, {op.words_in}, {op.words_out}),\n" for op in OPS.values())


def page():
    """PROTOCOL.md's operations: number, words in, words out. Of a column that adds up the sum is what
    follows its last colon; of any other it is its first number."""
    found = {}

    def words(cell):
        total = re.search(r": ([\d,]+)(?:\.|$)", cell) or re.search(r"([\d,]+)", cell)
        return int(total.group(1).replace(",", ""))

    for line in (HERE / "PROTOCOL.md").read_text().splitlines():
        cells = [cell.strip() for cell in line.strip("|").split("|")]
        if cells[0].isdigit() and len(cells) == 4:
            found[int(cells[0])] = (words(cells[2]), words(cells[3]))
    return found


def arms(text):
    """The numbers that the arms of a `match` name."""
    found = set()
    for arm in re.findall(r"^ +([\d| .=]+) =>", text, re.M):
        for part in arm.split("|"):
            low, _, high = part.strip().partition("..=")
            found |= set(range(int(low), int(high or low) + 1))
    return found


def modules():
    """By module of crates/cases/src: the operations that its `answer` functions name."""
    folder = ROOT / "crates" / "cases" / "src"
    found = {path.stem: {n for n in arms(path.read_text()) if n > 100} for path in folder.glob("*.rt")}
    return {name: numbers for name, numbers in found.items() if numbers}


def unlike():
    """What doesn't agree with ops.txt, a line each."""
    lines = []

    def same(what, found, listed):
        for number in sorted(set(found) ^ set(listed)):
            lines.append(f"{number}: {'only in' if number in found else 'not in'} {what}")

    described = page()
    same("PROTOCOL.md", described, OPS)
    for number in described.keys() & OPS.keys():
        op = OPS[number]
        if described[number] != (op.words_in, op.words_out):
            lines.append(f"{number}: PROTOCOL.md has {described[number]} words in and out, "
                         f"ops.txt {op.words_in, op.words_out}")
    tool = (HERE / "tool.rs").read_text()
    same("tool.rs", arms(tool[tool.index("fn answer("): tool.index("fn correlations(")]), OPS)
    here = modules()
    for group in GROUPS:
        same(f"crates/cases/src/{group}.rt", here.pop(group, set()),
             [op.number for op in OPS.values() if op.group == group])
    lines += [f"crates/cases/src/{name}.rt: no group of ops.txt" for name in here]
    return lines
