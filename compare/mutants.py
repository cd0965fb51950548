"""Deliberately wrong builds of the Rust, one slip of slips.py each, and which inputs tell them apart."""
import re
import subprocess
from collections import Counter, defaultdict
from itertools import islice

import beside
import build
import cases
import extract
import states
import tables
import words as w
from slips import SLIPS


def edit(parts, slip):
    """The parts of a build with one slip in."""
    parts = dict(parts, edits=list(parts.get("edits", [])))
    for piece, old, new, *which in slip:
        if piece == "own":
            parts["edits"].append((old, new))
        elif piece == "tables":
            parts["tables"] = last_bit(*old.split())
        elif piece == "entry":
            piece, table, index = old.split()
            parts[piece] = next_entry(parts[piece], table, int(index))
        elif which:
            at = [m.start() for m in re.finditer(re.escape(old), parts[piece])][which[0]]
            parts[piece] = parts[piece][:at] + new + parts[piece][at + len(old) :]
        else:
            parts[piece] = extract.replace(parts[piece], old, new, 1, f"slip in {piece}")
    return parts


def last_bit(table, index):
    """The tables' text with one entry's last bit turned."""
    text = tables.rust()
    at = text.index(f"{table}_BITS")
    words = list(re.finditer(r"0x([0-9A-F]{16})", text[at:]))
    word = words[int(index)]
    turned = "0x%016X" % (int(word.group(1), 16) ^ 1)
    return text[: at + word.start()] + turned + text[at + word.end() :]


def next_entry(text, table, index):
    """The text with one entry of a table at the next value above: whole numbers by one, others by
    one step of f32."""
    at = re.search(rf"{table}: [^=]*=", text).end()
    number = list(re.finditer(r"\d[\d_]*(?:\.[\d_]+)?", text[at:]))[index]
    literal = number.group().replace("_", "")
    above = f"f32::from_bits(0x{w.bits(float(literal)) + 1:08X})" if "." in literal else str(int(literal) + 1)
    return text[: at + number.start()] + above + text[at + number.end() :]


def output(program, mode, data):
    """What a build writes, up to where it breaks down if it does."""
    return subprocess.run([program, mode], input=data, capture_output=True).stdout


def in_records(wrong, records, right):
    """The record categories, one after the other, that tell a wrong build from the right one."""
    for category, group in records.items():
        if output(wrong, "records", b"".join(s.tobytes() for s in group)) != right[category]:
            yield category


def in_cases(wrong, todo, right):
    """The ops and case families that do."""
    for op, group in todo.items():
        got = output(wrong, "cases", b"".join(map(beside.pack, group)))
        if got != right[op]:
            size = 4 * cases.OPS[op].words_out
            parts = range(0, len(right[op]), size)
            yield from {f"{op} {case[1]}": None for at, case in zip(parts, group)
                        if got[at : at + size] != right[op][at : at + size]}


def tool(parts, name):
    """The program with one slip in."""
    own = ("around.rs", "standin.rs", "tool.rs")
    text = build.program(edit(parts, SLIPS[name]), own)
    text += "fn further(_: &str) -> std::io::Result<()> {\n    Ok(())\n}\n"
    return build.compile_rust(text, "mutants/" + re.sub(r"\W+", "_", name), quick=True)


# The groups of ops whose answers an edit of a piece can change, whole losses aside.
REACHED = {
    "plc": ["filters", "search", "pitch"],
    "band_quant": ["bands", "noise"],
    "mdct": ["transform", "pitch", "noise"],
    "custom_mode": ["modes", "noise"],
    "preemph": ["frames"],
    "ref_decode": ["modes", "pitch", "noise"],
    "methods": ["search", "frames", "pitch", "noise", "losses"],
    "tables": ["modes", "transform", "noise"],
    "own": ["modes", "transform", "noise", "losses"],
}


def reached(todo, slip):
    """The cases that can tell a slip apart."""
    pieces = {old.split()[0] if piece == "entry" else piece for piece, old, *_ in slip}
    groups = {group for piece in pieces for group in REACHED[piece]}
    return {op: group for op, group in todo.items() if cases.OPS[op].group in groups}


def by_op(seed, scale):
    maker = cases.Cases(seed, scale, 300)
    todo = defaultdict(list)
    for name in cases.GROUPS:
        for case in maker.group(name):
            todo[case[0]].append(case)
    return todo


def stored(folder):
    """Which wrong builds the stored sample of `conceal` tells apart, and which of the others that of
    `cases` does."""
    samples = {}
    for program, mode in (("conceal", "records"), ("cases", "cases")):
        crate = beside.ROOT / "crates" / program
        samples[program] = mode, (crate / "stdin").read_bytes(), (crate / "stdout").read_bytes()
    parts = build.put_standins(build.pieces(folder))
    told = Counter()
    for name in SLIPS:
        wrong = tool(parts, name)
        by = next((program for program, (mode, data, right) in samples.items()
                   if output(wrong, mode, data) != right), None)
        told[by] += 1
        if by != "conceal":
            print(f"{by or 'MISSED'}: {name}", flush=True)
    print(f"{told['conceal']} of {len(SLIPS)} wrong builds told apart by the stored sample of conceal, "
          f"{told['cases']} more by that of cases, {told[None]} by neither")


def report(folder, standin, seed, scale, names):
    """Builds every wrong version and says by what it is told apart: by the first record category
    that does, else by the first op. Of those named, all categories and ops are listed."""
    every = names == "all"
    chosen = list(SLIPS) if every else names.split(";")
    todo = by_op(seed, scale)
    maker = states.States(seed)
    records = {"chosen": maker.chosen()} if every and scale >= 4 else {}
    records |= {name: maker.make(name, 25 * scale) for name in maker.categories()}
    right = {op: output(standin, "cases", b"".join(map(beside.pack, group)))
             for op, group in todo.items()}
    right |= {name: output(standin, "records", b"".join(s.tobytes() for s in group))
              for name, group in records.items()}
    parts = build.put_standins(build.pieces(folder))
    caught = whole = 0
    for name in chosen:
        wrong = tool(parts, name)
        found = list(islice(in_records(wrong, records, right), 1 if every else None))
        ops = [] if every and found else list(islice(in_cases(wrong, reached(todo, SLIPS[name]), right), 1 if every else None))
        caught += bool(found or ops)
        whole += bool(found)
        print(f"{'caught' if found or ops else 'MISSED'}: {name}; records: {', '.join(found) or 'none'};"
              f" cases: {', '.join(ops) or ('not asked' if every and found else 'none')}", flush=True)
    print(f"{caught} of {len(chosen)} wrong builds told apart, {whole} by whole records")
