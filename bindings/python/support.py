"""What the tests share: the repository's files, and tables of its README."""
import array
import pathlib
import re

from vikkozhan import Concealer, History, State

TOP = pathlib.Path(__file__).resolve().parents[2]
START_LINE = TOP / "samples" / "start-line.rec"


def start_line(**fields):
    """The sample's record, with fields of its state set anew."""
    concealer = Concealer.from_record(START_LINE.read_bytes())
    for name, value in fields.items():
        setattr(concealer.state, name, value)
    return concealer.to_record()


def stereo(**fields):
    """The sample's record with channel 0's sound, upside down and half as loud, as channel 1's."""
    concealer = Concealer.from_record(start_line(channels=2, **fields))
    half = len(concealer.history) // 2
    concealer.history[half:] = [-0.5 * sample for sample in concealer.history[:half]]
    state = concealer.state
    state.memories[1] = -0.5 * state.memories[0]
    for energies in (state.coarse, state.background):
        energies[25:] = energies[:25]
    return concealer.to_record()


def with_words(words):
    """The Concealer of a record of zeros but for some words, {index: its 32 bits}."""
    record = array.array("I", bytes(17988))
    for at, word in words.items():
        record[at] = word
    return Concealer(State.from_buffer_copy(record), History.from_buffer_copy(record, 644))


def readme_table(*titles):
    """The rows, each a list of cells, of the README's table with these column titles."""
    lines = iter((TOP / "README.md").read_text(encoding="utf-8").splitlines())
    if any(cells(line) == list(titles) for line in lines):
        next(lines)
        rows = []
        for line in lines:
            if not line.startswith("|"):
                return rows
            rows.append(cells(line))
    raise AssertionError("README.md has no table with the columns " + ", ".join(titles))


def cells(line):
    return [cell.strip() for cell in re.findall(r"\|([^|]*)(?=\|)", line)]
