"""Tests of tools/outage, as a program, and of the picture it draws: `python3 -m unittest`, in this folder."""
import itertools
import os
import pathlib
import pty
import shutil
import subprocess
import sys
import tempfile
import unittest
import wave

from support import START_LINE, TOP, start_line, stereo
from vikkozhan import Concealer
from vikkozhan.outage import ALPHA, Outage

try:
    from matplotlib.text import Text
    from vikkozhan.picture import picture
except ImportError:
    picture = None

CC = shutil.which("cc")
SIX = "6 losses concealed: 5 by pitch, 1 by noise; 5760 samples a channel, largest 0.244\n"

# A library of a later version. A frame's kind is the state's lag, and it takes as many milliseconds as the seed has.
LATER = """
#include <unistd.h>
#include "vikkozhan.h"
uint32_t vikkozhan_version(void) { return 0x010900; }
int vikkozhan_decode_lost(VikkozhanState *state, float *history, size_t history_len, float *pcm, size_t pcm_len,
                          VikkozhanAnswer *answer) {
    usleep(1000 * state->seed);
    for (int i = 0; i < 960; i++) pcm[i] = history[i % history_len] / 32768 + 0 * pcm_len;
    answer->number = 0, answer->kind = state->lag, answer->samples = 960;
    return 0;
}
size_t vikkozhan_answer(uint8_t *a, size_t b, uint8_t *c, size_t d) { return (a == c) * (b + d); }
"""


class Tool(unittest.TestCase):
    """Runs the tool in a folder of its own, where record.rec is the sample."""

    def setUp(self):
        folder = tempfile.TemporaryDirectory()
        self.addCleanup(folder.cleanup)
        self.folder = pathlib.Path(folder.name)
        self.put("record.rec", START_LINE.read_bytes())

    def put(self, name, data):
        (self.folder / name).write_bytes(data)

    def run_tool(self, *words, stdout=subprocess.PIPE, stderr=subprocess.PIPE, **environment):
        return subprocess.run([sys.executable, str(TOP / "tools" / "outage")] + list(words), cwd=str(self.folder),
                              env=dict(os.environ, **environment), stdout=stdout, stderr=stderr,
                              universal_newlines=True)

    def without_matplotlib(self):
        (self.folder / "none").mkdir(exist_ok=True)
        self.put("none/matplotlib.py", b"raise ImportError('there is none')")
        return {"PYTHONPATH": str(self.folder / "none")}

    def later_library(self):
        source, shared = self.folder / "later.c", self.folder / "later.so"
        source.write_text(LATER)
        subprocess.run([CC, "-shared", "-fPIC", "-I", str(TOP / "include"), "-o", str(shared), str(source)], check=True)
        return {"VIKKOZHAN_LIBRARY": str(shared)}

    def files(self):
        return sorted(file.name for file in self.folder.iterdir() if file.name.startswith("o."))


class Runs(Tool):
    def test_six_are_usual(self):
        done = self.run_tool("record.rec")
        self.assertEqual((done.stdout, done.stderr, done.returncode), (SIX, "", 0))

    def test_a_run(self):
        done = self.run_tool("record.rec", "12")
        self.assertEqual(done.stdout,
                         "12 losses concealed: 5 by pitch, 7 by noise; 11520 samples a channel, largest 0.244\n")

    def test_sound(self):
        cases = ((start_line(), 1, 48000), (stereo(), 2, 48000), (start_line(downsample=3), 1, 16000))
        for record, channels, rate in cases:
            self.put("other.rec", record)
            done = self.run_tool("other.rec", "2", "--out", "o", **self.without_matplotlib())
            self.assertEqual(done.returncode, 0, done.stderr)
            with wave.open(str(self.folder / "o.wav")) as sound:
                self.assertEqual(sound.getparams()[:4], (channels, 2, rate, (2048 + 2 * 960) * rate // 48000))

    def test_without_matplotlib(self):
        done = self.run_tool("record.rec", "--out", "o", **self.without_matplotlib())
        self.assertEqual((done.stdout, done.returncode, self.files()), (SIX + "wrote o.wav\n", 0, ["o.wav"]))
        self.assertEqual(done.stderr, "outage: no picture: there is none. Install Debian's python3-matplotlib and run"
                         " /usr/bin/python3 tools/outage; the rest needs neither\n")

    @unittest.skipIf(picture is None, "matplotlib is not there")
    def test_with_matplotlib(self):
        done = self.run_tool("record.rec", "--out", "o")
        self.assertEqual((done.stdout, done.stderr), (SIX + "wrote o.wav and o.png\n", ""))
        self.assertEqual((self.folder / "o.png").read_bytes()[:8], b"\x89PNG\r\n\x1a\n")

    def test_refused_on_the_way(self):
        self.put("full.rec", start_line(loss_count=4294967293))
        done = self.run_tool("full.rec", "5", "--out", "o", **self.without_matplotlib())
        self.assertEqual((done.returncode, self.files()), (1, ["o.wav"]))
        self.assertIn("2 losses concealed: 0 by pitch, 2 by noise; 1920 samples a channel", done.stdout)
        self.assertIn("outage: loss 3 is refused with number 6: loss count 4,294,967,295. What to do: ", done.stderr)

    def test_what_a_wav_cannot_hold(self):
        concealer = Concealer.from_record(START_LINE.read_bytes())
        concealer.history[2047] = float("nan")
        self.put("nan.rec", concealer.to_record())
        done = self.run_tool("nan.rec", "2", "--out", "o", **self.without_matplotlib())
        self.assertEqual(done.returncode, 0)
        self.assertIn("in o.wav samples beyond full scale are cut to it, and NaN is silent: 1 of them\n", done.stderr)

    @unittest.skipIf(CC is None, "cc is not there")
    def test_a_kind_without_a_name(self):
        self.put("seven.rec", start_line(lag=7, seed=0))
        done = self.run_tool("seven.rec", "3", "--out", "o", **self.later_library())
        self.assertEqual((done.stdout.splitlines()[0].split(";")[0], done.returncode),
                         ("3 losses concealed: 0 by pitch, 0 by noise, 3 by kind 7", 0))
        self.assertNotIn("Traceback", done.stderr)

    @unittest.skipIf(CC is None, "cc is not there")
    def test_progress_after_a_second(self):
        self.put("slow.rec", start_line(lag=1, seed=250))
        done = self.run_tool("slow.rec", "6", **self.later_library())
        self.assertIn("outage: 5 of 6 losses\n", done.stderr)
        self.assertNotIn("outage: 2 of 6 losses\n", done.stderr)

    @unittest.skipIf(CC is None, "cc is not there")
    def test_progress_on_a_terminal(self):
        self.put("slow.rec", start_line(lag=1, seed=120))
        ours, terminal = pty.openpty()
        self.addCleanup(os.close, ours)
        self.run_tool("slow.rec", "3", stderr=terminal, **self.later_library())
        os.close(terminal)
        self.assertIn(b"\r2 of 3 losses", os.read(ours, 10000))

    def test_help(self):
        done = self.run_tool("--help")
        self.assertEqual((done.returncode, done.stderr), (0, ""))
        for words in ("A record is", "tools/outage samples/start-line.rec 12 --out outage", "python3-matplotlib"):
            self.assertIn(words, done.stdout)


class BadInputs(Tool):
    def refused(self, said, status, *words, **environment):
        """The tool says one line, ends with this status, and writes nothing."""
        done = self.run_tool(*words, **environment)
        self.assertEqual((done.stdout, done.returncode, self.files()), ("", status, []), done.stderr)
        self.assertRegex(done.stderr, r"\Aoutage: .*\n\Z")
        self.assertIn(said, done.stderr)

    def test_no_file(self):
        self.refused("none.rec cannot be read: No such file or directory", 2, "none.rec")

    def test_a_folder(self):
        self.refused(". cannot be read: Is a directory", 2, ".")

    def test_too_short(self):
        for size, told in ((0, "0"), (17987, "17,987")):
            self.put("short.rec", bytes(size))
            self.refused("short.rec is too short: it has %s bytes, and a record has 17,988" % told, 2, "short.rec")

    def test_refused(self):
        self.put("zeros.rec", bytes(17988))
        self.refused("zeros.rec: its first record is refused with number 2: channels not 1 or 2. What to do: set it for"
                     " the stream", 2, "zeros.rec", "3", "--out", "o")

    def test_losses(self):
        for text in ("0", "-1", "six", "1.5", "30001"):
            self.refused("'%s' is not a number of losses from 1 to 30,000" % text, 2, "record.rec", text, "--out", "o")

    def test_no_record_named(self):
        self.refused("RECORD", 2)

    def test_no_such_folder(self):
        self.refused("no such folder: none", 2, "record.rec", "--out", "none/o")

    def test_no_name(self):
        self.refused("is a folder: add a name for the files", 2, "record.rec", "--out", "./")

    @unittest.skipIf(os.geteuid() == 0, "root may write anywhere")
    def test_a_folder_that_cannot_be_written(self):
        (self.folder / "locked").mkdir(mode=0o555)
        self.refused("nothing can be written in the folder locked", 2, "record.rec", "--out", "locked/o")

    def test_a_file_that_cannot_be_written(self):
        (self.folder / "x.wav").mkdir()
        done = self.run_tool("record.rec", "--out", "x")
        self.assertEqual((done.stdout, done.stderr, done.returncode),
                         (SIX, "outage: x.wav cannot be written: Is a directory\n", 1))

    @unittest.skipIf(picture is None, "matplotlib is not there")
    def test_a_picture_that_cannot_be_written(self):
        (self.folder / "x.png").mkdir()
        done = self.run_tool("record.rec", "--out", "x")
        self.assertEqual((done.stdout, done.stderr, done.returncode),
                         (SIX + "wrote x.wav\n", "outage: x.png cannot be written: Is a directory\n", 1))

    @unittest.skipUnless(os.path.exists("/dev/full"), "no /dev/full here")
    def test_a_full_disk(self):
        (self.folder / "x.wav").symlink_to("/dev/full")
        done = self.run_tool("record.rec", "--out", "x")
        self.assertEqual((done.stderr, done.returncode),
                         ("outage: x.wav cannot be written: No space left on device\n", 1))
        with open("/dev/full", "w") as full:
            done = self.run_tool("record.rec", stdout=full)
        self.assertEqual((done.stderr, done.returncode),
                         ("outage: standard output cannot be written: No space left on device\n", 1))

    def test_no_library(self):
        self.refused("VIKKOZHAN_LIBRARY names /none.so, which cannot be used", 1, "record.rec",
                     VIKKOZHAN_LIBRARY="/none.so")


class Sound(unittest.TestCase):
    def lost(self, record, losses=5):
        outage = Outage(record)
        outage.lose(losses)
        return outage

    def test_heard_ends_as_the_decoder_did(self):
        outage = Outage(START_LINE.read_bytes())
        memory = outage.concealer.state.memories[0]
        self.assertAlmostEqual(32768 * ALPHA * outage.heard(0)[-1] / memory, 1, places=4)

    def test_downsampled_at_the_same_times(self):
        full = self.lost(start_line())
        for downsample in (2, 3, 4, 6):
            part = self.lost(start_line(downsample=downsample))
            self.assertEqual(part.rate, 48000 // downsample)
            self.assertEqual(part.made(0), full.made(0)[::downsample])
            self.assertEqual(part.heard(0)[::-1], full.heard(0)[::-1][downsample - 1::downsample])

    def test_channels(self):
        outage = self.lost(stereo())
        for left, right in ((outage.heard(0), outage.heard(1)), (outage.made(0)[:960], outage.made(1)[:960])):
            self.assertLess(max(abs(a + 2 * b) for a, b in zip(left, right)), 1e-4)

    def test_where_the_history_stops_to_matter(self):
        self.assertEqual(self.lost(start_line(), 6).independent_from(), None)
        self.assertEqual(self.lost(start_line(), 7).independent_from(), 6)
        self.assertEqual(self.lost(start_line(start=17), 3).independent_from(), 1)


@unittest.skipIf(picture is None, "matplotlib is not there")
class Picture(unittest.TestCase):
    OUTAGES = ((start_line(), 6), (start_line(), 12), (stereo(), 12), (start_line(lm=0, downsample=6), 40),
               (start_line(loss_count=8), 1), (start_line(), 300))

    def drawn(self, record, losses):
        outage = Outage(record)
        outage.lose(losses)
        figure = picture(outage)
        figure.canvas.draw()
        return figure

    def texts(self, figure):
        """Every text that is seen, with its place in dots. Tick labels beyond an axis are there, but not drawn."""
        hidden = set()
        for axes in figure.axes:
            for axis, limits, at in ((axes.xaxis, axes.get_xlim(), 0), (axes.yaxis, axes.get_ylim(), 1)):
                for label in axis.get_ticklabels():
                    if not (axes.axison and min(limits) <= label.get_position()[at] <= max(limits)):
                        hidden.add(label)
        for text in figure.findobj(Text):
            if text.get_visible() and text.get_text() and text not in hidden:
                yield text.get_text(), text.get_window_extent()

    def test_texts_are_whole_and_apart(self):
        for at, (record, losses) in enumerate(self.OUTAGES):
            with self.subTest(outage=at):
                figure = self.drawn(record, losses)
                texts = list(self.texts(figure))
                for text, place in texts:
                    self.assertTrue(place.x0 >= 0 and place.y0 >= 0 and place.x1 <= figure.bbox.x1
                                    and place.y1 <= figure.bbox.y1, "%r is cut off" % text)
                for (text, place), (other, beside) in itertools.combinations(texts, 2):
                    self.assertFalse(place.overlaps(beside), "%r and %r overlap" % (text, other))

    def test_each_frame_is_labelled(self):
        texts = [text for text, _ in self.texts(self.drawn(start_line(), 12))]
        self.assertEqual((texts.count("heard"), texts.count("pitch"), texts.count("noise")), (1, 5, 7))

    def test_legend(self):
        legend = [text.get_text() for text in self.drawn(start_line(), 12).legends[0].get_texts()]
        self.assertEqual(legend, [
            "pitch: 5 frames made up by repeating the last pitch cycle",
            "noise: 7 frames made up of noise with the energies of the bands",
            "0 ms, the seam: the link dropped here; what is left of it was heard",
            "120 ms, second frame of noise: from here on nothing of the history before the outage matters"
            " (ahead of de-emphasis)"])

    def test_time(self):
        for record in (start_line(), start_line(downsample=6)):
            left, right = self.drawn(record, 6).axes[-2].get_xlim()
            self.assertAlmostEqual(right, 120)
            self.assertTrue(-43 < left < -42)

    def test_what_is_not_finite_or_silent(self):
        for value in (float("nan"), float("inf"), 1e30, 0.0):
            concealer = Concealer.from_record(START_LINE.read_bytes())
            concealer.history[:2168] = [value] * 2168
            self.drawn(concealer.to_record(), 7)


if __name__ == "__main__":
    unittest.main()
