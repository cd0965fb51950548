"""Tests of the package but for the outage: `python3 -m unittest`, in this folder."""
import array
import copy
import ctypes
import io
import os
import pathlib
import pickle
import struct
import subprocess
import sys
import tempfile
import threading
import unittest
from unittest import mock

import vikkozhan
from support import START_LINE, TOP, readme_table, start_line, stereo, with_words
from vikkozhan import Concealer, CutRecord, History, Kind, LibraryError, Refused, State
from vikkozhan.buffers import numpy
from vikkozhan.library import Version, library
from vikkozhan.refusals import TEXTS

HEAD_BYTES = 7692
SENTINEL = 123.5


def answered(record):
    """What vikkozhan_answer gives for a record: head and record after it."""
    after, head = ctypes.create_string_buffer(bytes(record), 17988), ctypes.create_string_buffer(HEAD_BYTES)
    size = library().vikkozhan_answer(after, 17988, head, HEAD_BYTES)
    return head.raw[:size], after.raw


def concealed(record):
    """The same by the package's own means."""
    concealer = Concealer.from_record(record)
    frame = concealer.conceal()
    return struct.pack("<3I", 0, frame.kind, frame.samples) + vikkozhan.one_nan(frame.pcm), concealer.to_record()


def run(record, losses=12):
    """The heads of so many losses in a row, and the record after them."""
    heads = []
    for _ in range(losses):
        head, record = concealed(record)
        heads.append(head)
    return heads, record


def various():
    """Records of all frame sizes, both channel counts, all rates, both paths."""
    for lm in range(4):
        yield start_line(lm=lm, seed=lm)
        yield stereo(lm=lm, end=17)
    for downsample in (2, 3, 4, 6):
        yield start_line(downsample=downsample)
        yield stereo(downsample=downsample)
    yield start_line(start=17)
    yield start_line(filter_period=200, filter_gain=0.5, filter_tapset=1)


class Layout(unittest.TestCase):
    def test_state_is_644_bytes(self):
        self.assertEqual(ctypes.sizeof(State), 644)

    def test_fields_lie_where_readme_says(self):
        *state, history = readme_table("byte", "words", "what")
        fields = [getattr(State, name) for name, _ in State._fields_]
        self.assertEqual([(f.offset, f.size) for f in fields],
                         [(int(byte), 4 * int(words)) for byte, words, _ in state])
        self.assertEqual((ctypes.sizeof(State), len(History())), (int(history[0]), int(history[1].replace(",", ""))))

    def test_floats_are_where_readme_says(self):
        *state, _ = readme_table("byte", "words", "what")
        floats = [kind is not ctypes.c_uint32 for _, kind in State._fields_]
        self.assertEqual(floats, ["f32" in what for _, _, what in state])

    def test_history_views(self):
        history = History()
        history.samples(0)[0], history.samples(1)[2047], history.overlap(0)[0], history.overlap(1)[119] = 1, 2, 3, 4
        self.assertEqual({at: value for at, value in enumerate(history) if value},
                         {0: 1.0, 2048: 3.0, 2168 + 2047: 2.0, 4335: 4.0})
        self.assertEqual((len(history.samples(1)), len(history.overlap(1))), (2048, 120))
        self.assertRaises(IndexError, history.samples, 2)


class Fields(unittest.TestCase):
    def test_a_fresh_state_is_accepted(self):
        self.assertEqual(Concealer(State()).conceal().samples, 960)

    def test_keywords(self):
        state = State(channels=2, seed=4294967295, coarse=range(50))
        self.assertEqual((state.lm, state.channels, state.end, state.seed), (3, 2, 21, 4294967295))
        self.assertEqual(list(state.coarse), list(range(50)))

    def test_misspelt(self):
        self.assertRaisesRegex(TypeError, "no field chanels", State, chanels=2)
        with self.assertRaisesRegex(AttributeError, "no field los_count"):
            State().los_count = 1

    def test_no_silent_wrapping(self):
        for value in (-1, 1 << 32):
            self.assertRaisesRegex(OverflowError, "lm is 0 to 4,294,967,295, not", State, lm=value)

    def test_no_silent_filling(self):
        self.assertRaisesRegex(ValueError, "predictor is 48 values, not 47", State, predictor=[0.0] * 47)

    def test_copy(self):
        state = State(seed=7)
        other = copy.deepcopy(state)
        other.seed = 8
        self.assertEqual((state.seed, bytes(copy.copy(state)) == bytes(state)), (7, True))

    def test_shown(self):
        self.assertIn("State(lm=3, channels=2, start=0, end=21, downsample=1", repr(State(channels=2)))


class Kinds(unittest.TestCase):
    def test_known(self):
        self.assertEqual([str(kind) for kind in Kind], ["none", "pitch", "noise"])

    def test_unknown_shows_its_number(self):
        kind = Kind(7)
        self.assertEqual((kind, int(kind), str(kind), "{}".format(kind)), (7, 7, "kind 7", "kind 7"))
        self.assertEqual(pickle.loads(pickle.dumps(kind)), kind)

    def test_no_number(self):
        self.assertRaises(ValueError, Kind, -1)
        self.assertRaises(ValueError, Kind, "pitch")


class Refusals(unittest.TestCase):
    STATES = {
        1: {"lm": 4}, 2: {"channels": 3}, 3: {"start": 21, "end": 22}, 4: {"end": 0}, 5: {"downsample": 5},
        6: {"loss_count": 4294967295}, 7: {"loss_count": 1, "lag": 101}, 8: {"filter_period": 14}, 9: {}, 10: {},
    }

    def lent(self, number):
        """State, history and PCM buffer of a call that gets this number."""
        state = State.from_buffer_copy(start_line(**self.STATES[number]))
        history = array.array("f", START_LINE.read_bytes()[644:])
        pcm = array.array("f", [SENTINEL]) * (959 if number == 10 else 1920)
        if number == 9:
            history.pop()
        return state, history, pcm

    def test_each_number_changes_nothing(self):
        for number in self.STATES:
            with self.subTest(number=number):
                state, history, pcm = lent = self.lent(number)
                before = [bytes(part) for part in lent]
                with self.assertRaises(Refused) as caught:
                    Concealer(state, history).conceal(pcm)
                self.assertEqual(caught.exception.number, number)
                self.assertEqual([bytes(part) for part in lent], before)

    def test_first_that_applies(self):
        concealer = Concealer(State(lm=4, channels=0, end=0), array.array("f"))
        with self.assertRaises(Refused) as caught:
            concealer.conceal(array.array("f"))
        self.assertEqual(caught.exception.number, 1)

    def test_an_empty_buffer(self):
        for number, history, pcm in ((9, array.array("f"), None), (10, None, array.array("f"))):
            with self.assertRaises(Refused) as caught:
                Concealer(State(), history).conceal(pcm)
            self.assertEqual(caught.exception.number, number)

    def test_a_buffer_can_be_made_longer(self):
        concealer, pcm = Concealer(State()), array.array("f", bytes(4 * 959))
        try:
            concealer.conceal(pcm)
        except Refused:
            pcm.append(0.0)
        self.assertEqual(concealer.conceal(pcm).samples, 960)

    def test_words_are_readmes(self):
        rows = {int(row[0]): row[1:] for row in readme_table("number", "when", "what to do")}
        del rows[0]
        self.assertEqual(sorted(rows), sorted(TEXTS))
        for number, (wrong, remedy) in rows.items():
            remedy = remedy.replace(". The program never gives this", "").replace("program only: ", "")
            self.assertEqual(TEXTS[number], (wrong, remedy))

    def test_told(self):
        refused = Refused(2)
        self.assertEqual(str(refused),
                         "refused with number 2: channels not 1 or 2. What to do: set it for the stream")
        self.assertEqual((refused.number, refused.wrong, refused.remedy),
                         (2, "channels not 1 or 2", "set it for the stream"))
        self.assertIn("number 99: no number of this version", str(Refused(99)))


class WorkedExamples(unittest.TestCase):
    """Those of README's section on the record format."""

    def test_refused(self):
        with self.assertRaises(Refused) as caught:
            Concealer.from_record(bytes(17988)).conceal()
        self.assertEqual(caught.exception.number, 2)

    def test_accepted(self):
        concealer = with_words({1: 1, 3: 21, 4: 6, 8: 15})
        frame = concealer.conceal()
        self.assertEqual((frame.kind, frame.samples, bytes(frame.pcm)), (Kind.PITCH, 20, bytes(80)))
        self.assertEqual(struct.unpack_from("<11I", concealer.to_record()), (0, 1, 0, 21, 6, 1, 0, 720, 15, 0, 0))


class Answers(unittest.TestCase):
    def test_equal_to_vikkozhan_answer(self):
        for record in various():
            for _ in range(7):
                want = answered(record)
                self.assertEqual(concealed(record), want)
                record = want[1]

    def test_nan(self):
        # in the history that is read, in an unused channel's, in the post-filter's gain, in what de-emphasis carries
        record = array.array("I", start_line())
        record[161 + 1900], record[161 + 4000], record[9], record[111] = 0x7F800001, 0xFFC12345, 0xFFFFFFFF, 0xFFC12345
        want = answered(record)
        self.assertEqual((want[0][12:16], want[1][36:40]), (struct.pack("<I", 0x7FC00000),) * 2)
        self.assertEqual(concealed(record.tobytes()), want)

    def test_a_longer_buffers_rest(self):
        for record in (start_line(), stereo(lm=0, downsample=6)):
            own = Concealer.from_record(record).conceal()
            pcm = array.array("f", [SENTINEL]) * 2500
            frame = Concealer.from_record(record).conceal(pcm)
            self.assertIs(frame.pcm, pcm)
            self.assertEqual((frame.kind, frame.samples), (own.kind, own.samples))
            self.assertEqual(bytes(pcm[:frame.samples]), bytes(own.pcm))
            self.assertEqual(set(pcm[frame.samples:]), {SENTINEL})

    def test_an_exact_buffer(self):
        pcm = array.array("f", bytes(4 * 960))
        self.assertEqual(Concealer.from_record(start_line()).conceal(pcm).samples, 960)

    def test_sixteen_threads(self):
        records = [record for record, _ in zip(various(), range(16))]
        want = [run(record) for record in records]
        together = threading.Barrier(16)
        got = [None] * 16

        def one(at):
            together.wait()
            got[at] = run(records[at])

        threads = [threading.Thread(target=one, args=(at,)) for at in range(16)]
        for thread in threads:
            thread.start()
        for thread in threads:
            thread.join()
        self.assertEqual(got, want)


class Buffers(unittest.TestCase):
    def lend(self, history=None, pcm=None):
        return Concealer(State(), history).conceal(pcm)

    def test_in_place(self):
        record = start_line()
        want = Concealer.from_record(record)
        want.conceal()
        for history in (array.array("f", record[644:]), (ctypes.c_float * 4336).from_buffer_copy(record, 644)):
            state = State.from_buffer_copy(record)
            Concealer(state, history).conceal()
            self.assertEqual(bytes(state) + bytes(history), want.to_record())

    def test_no_buffer_of_floats(self):
        for wrong in ([0.0] * 4336, bytearray(17344), array.array("d", bytes(8 * 4336)), bytes(17344), "text", 5):
            with self.subTest(type=type(wrong)):
                self.assertRaisesRegex(TypeError, "^pcm ", self.lend, None, wrong)
                self.assertRaisesRegex(TypeError, "^history ", self.lend, wrong)

    def test_read_only(self):
        floats = memoryview(bytes(4 * 4336)).cast("f")
        self.assertRaisesRegex(ValueError, "history .* read-only", self.lend, floats)

    def test_overlap(self):
        both = memoryview(bytearray(4 * 6000)).cast("f")
        self.assertRaisesRegex(ValueError, "history and pcm overlap", self.lend, both[:4336], both[4335:])
        self.lend(both[:4336], both[4336:])

    def test_unaligned(self):
        floats = (ctypes.c_float * 4336).from_buffer(bytearray(17345), 1)
        self.assertRaisesRegex(ValueError, "multiple of 4", self.lend, floats)

    def test_no_state(self):
        self.assertRaisesRegex(TypeError, "a State, not dict", Concealer, {})


@unittest.skipIf(numpy is None, "numpy is not there")
class Numpy(unittest.TestCase):
    def test_given_back(self):
        pcm = Concealer.from_record(start_line()).conceal().pcm
        self.assertEqual((type(pcm), pcm.dtype, pcm.shape), (numpy.ndarray, numpy.float32, (960,)))
        self.assertTrue(pcm.flags.writeable)

    def test_in_place(self):
        record = start_line()
        history = numpy.frombuffer(record[644:], numpy.float32).copy()
        pcm = numpy.full(2000, SENTINEL, numpy.float32)
        concealer = Concealer(State.from_buffer_copy(record), history)
        frame = concealer.conceal(pcm)
        self.assertIs(frame.pcm, pcm)
        head, after = answered(record)
        self.assertEqual((pcm[:960].tobytes(), concealer.to_record()), (head[12:], after))
        self.assertEqual(history.tobytes(), after[644:])
        self.assertTrue((pcm[960:] == SENTINEL).all())

    def test_a_part_of_an_array(self):
        pcm = numpy.zeros(3000, numpy.float32)
        Concealer.from_record(start_line()).conceal(pcm[1000:])
        self.assertTrue(pcm[1000:1960].any())
        self.assertFalse(pcm[:1000].any() or pcm[1960:].any())

    def test_other_types(self):
        for dtype in ("f8", "f2", ">f4", "i4", "M8[s]"):
            with self.subTest(dtype=dtype):
                self.assertRaisesRegex(TypeError, "^history ", Concealer, State(), numpy.zeros(4336, dtype))

    def test_other_shapes(self):
        for shape, words in (((2, 2168), "one dimension, not 2"), ((), "one dimension, not 0")):
            self.assertRaisesRegex(ValueError, words, Concealer, State(), numpy.zeros(shape, numpy.float32))
        strided = numpy.zeros(2 * 4336, numpy.float32)[::2]
        self.assertRaisesRegex(ValueError, "C-contiguous", Concealer, State(), strided)

    def test_without_numpy(self):
        with mock.patch("vikkozhan.concealer.numpy", None):
            pcm = Concealer.from_record(start_line()).conceal().pcm
        self.assertEqual(type(pcm), array.array)
        with mock.patch("vikkozhan.buffers.numpy", None):
            self.assertEqual(type(History().samples(0)), memoryview)


class Records(unittest.TestCase):
    def test_round_trip(self):
        for record in various():
            self.assertEqual(Concealer.from_record(record).to_record(), record)

    def test_one_nan(self):
        """Each float with a NaN's bits leaves as 7FC00000; a word with them, as the seed, stays."""
        words = struct.unpack("<4497I", with_words(dict.fromkeys(range(4497), 0xFFC12345)).to_record())
        self.assertEqual([at for at, word in enumerate(words) if word != 0x7FC00000], [0, 1, 2, 3, 4, 5, 6, 7, 8, 10])
        self.assertEqual({words[at] for at in (0, 6, 10)}, {0xFFC12345})

    def test_other_lengths(self):
        self.assertRaisesRegex(ValueError, "a record has 17,988 bytes, not 17,987", Concealer.from_record, bytes(17987))
        with self.assertRaises(Refused) as caught:
            Concealer(State(), array.array("f", [0.0])).to_record()
        self.assertEqual(caught.exception.number, 9)

    def test_files(self):
        records = [start_line(seed=seed) for seed in range(3)]
        whole = b"".join(records)
        self.assertEqual(list(vikkozhan.read_records(io.BytesIO(whole))), records)
        self.assertEqual(list(vikkozhan.read_records(io.BytesIO())), [])
        with tempfile.TemporaryDirectory() as folder:
            file = pathlib.Path(folder, "records")
            file.write_bytes(whole)
            self.assertEqual(list(vikkozhan.read_records(file)), records)
            self.assertEqual(list(vikkozhan.read_records(str(file))), records)

    def test_pieces(self):
        class Trickle(io.BytesIO):
            def read(self, size=-1):
                return super().read(min(size, 1000))

        self.assertEqual(list(vikkozhan.read_records(Trickle(start_line() * 2))), [start_line()] * 2)

    def test_cut_short(self):
        records = vikkozhan.read_records(io.BytesIO(start_line() * 2 + bytes(100)))
        self.assertEqual([next(records), next(records)], [start_line()] * 2)
        with self.assertRaises(CutRecord) as caught:
            next(records)
        cut = caught.exception
        self.assertEqual((cut.number, cut.index, cut.offset, cut.have), (11, 2, 35976, 100))
        self.assertEqual(str(cut), "record 3 of the file, from byte 35,976 on, is cut short:"
                         " 100 of its 17,988 bytes are there")
        self.assertEqual(str(pickle.loads(pickle.dumps(cut))), str(cut))

    def test_text(self):
        self.assertRaisesRegex(TypeError, "opened for bytes", next, vikkozhan.read_records(io.StringIO("text")))


class Library(unittest.TestCase):
    def load(self, name):
        with mock.patch.dict(os.environ, {"VIKKOZHAN_LIBRARY": name}):
            return library.__wrapped__()

    def test_version(self):
        header = (TOP / "include" / "vikkozhan.h").read_text(encoding="utf-8")
        self.assertIn('VIKKOZHAN_VERSION_STRING "vikkozhan %s"' % str(vikkozhan.version()), header)
        self.assertEqual(vikkozhan.version().major, 1)

    def test_other_major(self):
        with mock.patch("vikkozhan.library.version_of", return_value=Version(2, 0, 0)):
            self.assertRaisesRegex(LibraryError, "is version 2.0.0, and this package is for version 1",
                                   library.__wrapped__)

    def test_other_minor(self):
        with mock.patch("vikkozhan.library.version_of", return_value=Version(1, 9, 0)):
            library.__wrapped__()

    def test_not_built(self):
        with mock.patch("vikkozhan.library.PLACE", pathlib.Path("/nowhere/crates/vikkozhan/out/libvikkozhan.so")):
            with self.assertRaises(LibraryError) as caught:
                self.load("")
        self.assertEqual(str(caught.exception), "no /nowhere/crates/vikkozhan/out/libvikkozhan.so: run"
                         " `rt lib` in crates/vikkozhan and then `bindings/python/build`, in /nowhere")

    def test_cannot_be_used(self):
        for name in ("/nowhere.so", "libc.so.6", str(START_LINE)):
            self.assertRaisesRegex(LibraryError, "^VIKKOZHAN_LIBRARY names .*, which cannot be used: .*$",
                                   self.load, name)


class Example(unittest.TestCase):
    """examples/python/main.py, as a program."""

    def run_on(self, data):
        return subprocess.run([sys.executable, str(TOP / "examples" / "python" / "main.py")], input=data,
                              stdout=subprocess.PIPE, stderr=subprocess.PIPE)

    def test_answers(self):
        refused = array.array("I", bytes(17988))
        refused[200] = 0xFFC12345  # a refused record leaves byte for byte
        nan = array.array("I", start_line())
        nan[111] = 0xFFC12345  # what de-emphasis carries, so the samples are NaN
        for record in (start_line(), stereo(loss_count=5), refused.tobytes(), nan.tobytes()):
            done = self.run_on(record)
            self.assertEqual((done.stdout, done.stderr, done.returncode), (b"".join(answered(record)), b"", 0))

    def test_no_record(self):
        for data, words in ((b"", b"no record"), (bytes(5), b"cut short: 5 of its 17,988 bytes")):
            done = self.run_on(data)
            self.assertEqual((done.stdout, done.stderr.count(b"\n"), done.returncode), (b"", 1, 1))
            self.assertIn(words, done.stderr)


if __name__ == "__main__":
    unittest.main()
