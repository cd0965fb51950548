"""Runs programs on the same input and says where their answers part."""
import os
import struct
import subprocess
from collections import Counter

import states as st
from ops import HERE, OPS, ROOT

RECORD = 4 * st.STATE


def run(command, data):
    done = subprocess.run(command, input=data, capture_output=True)
    if done.returncode:
        raise SystemExit(f"{command[0]}: exit status {done.returncode}\n"
                         + done.stderr.decode(errors="replace")[-2000:])
    return done.stdout


def pack(case):
    op, _, body = case
    return struct.pack("<I", op) + (body.tobytes() if hasattr(body, "tobytes")
                                    else struct.pack(f"<{len(body)}I", *body))


class Tally:
    """Counts per category, and every difference."""

    def __init__(self):
        self.seen, self.unlike, self.lines = Counter(), Counter(), []

    def add(self, category, same, line):
        self.seen[category] += 1
        if not same:
            self.unlike[category] += 1
            self.lines.append(f"{category}: {line()}")

    def total(self):
        return sum(self.seen.values()), sum(self.unlike.values())


def first_unlike(a, b):
    """The first word in which two answers differ."""
    if len(a) != len(b):
        return f"{len(a)} bytes and {len(b)}"
    at = next(i for i in range(0, len(a), 4) if a[i : i + 4] != b[i : i + 4])
    return (f"word {at // 4} of {len(a) // 4}: "
            f"{a[at:at+4][::-1].hex().upper()} and {b[at:at+4][::-1].hex().upper()}")


def blocks(todo, limit=1 << 25):
    """Cases in blocks of a limited size, so that any number goes through."""
    block, size = [], 0
    for case in todo:
        block.append(case)
        size += 4 * max(1 + len(case[2]), OPS[case[0]].words_out)
        if size > limit:
            yield block
            block, size = [], 0
    yield block


def compare_cases(todo, left, right):
    """Cases through two programs; `left` and `right` are commands."""
    tally, done = Tally(), 0
    for block in blocks(todo):
        data = b"".join(map(pack, block))
        one, other = run(left, data), run(right, data)
        at = 0
        for n, (op, family, _) in enumerate(block, done):
            end = at + 4 * OPS[op].words_out
            a, b = one[at:end], other[at:end]
            tally.add(f"{op} {family}", a == b and len(a) == end - at,
                      lambda: f"case {n}, {first_unlike(a, b)}")
            at = end
        if not len(one) == len(other) == at:
            tally.add("whole answer", False,
                      lambda: f"{at} bytes owed, {len(one)} and {len(other)} came")
        done += len(block)
    return tally


def split_records(answers):
    """The answers of whole records, one by one."""
    at, out = 0, []
    while at + 12 <= len(answers):
        number, _, count = struct.unpack_from("<3I", answers, at)
        end = at + 12 + 4 * count + (0 if number == 11 else RECORD)
        out.append(answers[at:end])
        at = end
    return out


def compare_records(todo, left, right, tally=None, done=0):
    """Records (category, state) through two programs; gives the left's new records too. `done` is how
    many came before them."""
    tally, new = tally or Tally(), []
    for begin in range(0, len(todo), 1000):
        block = todo[begin : begin + 1000]
        data = b"".join(s.tobytes() for _, s in block)
        one, other = run(left, data), run(right, data)
        ones, others = split_records(one), split_records(other)
        for n, (category, _) in enumerate(block):
            a = ones[n] if n < len(ones) else b""
            b = others[n] if n < len(others) else b""
            tally.add(category, a == b and a, lambda: f"record {done + begin + n}, {first_unlike(a, b)}")
        if len(one) != len(other):
            tally.add("whole answer", False, lambda: f"{len(one)} and {len(other)} bytes")
        new += [a[-RECORD:] for a in ones]
    return tally, new


def program(name, check=True):
    """The path of a proved program of this repository, or None where there is no such crate. `rt run`
    proves and builds it, and runs it once: empty input writes nothing."""
    crate = ROOT / "crates" / name
    if not crate.is_dir():
        return None
    path = crate / "out" / name
    if check:
        done = subprocess.run(["rt", "run"], cwd=crate, stdin=subprocess.DEVNULL, capture_output=True)
        if done.returncode:
            raise SystemExit(f"compare: `rt run` in crates/{name} failed\n"
                             + done.stderr.decode(errors="replace")[-2000:])
    return path if os.access(path, os.X_OK) else None
