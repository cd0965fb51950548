"""A picture of an outage: waveform and spectrogram of what was heard and of what was made up. Needs matplotlib."""
import itertools

from matplotlib.backends.backend_agg import FigureCanvasAgg
from matplotlib.cm import ScalarMappable
from matplotlib.colors import Normalize
from matplotlib.figure import Figure
from matplotlib.lines import Line2D
from matplotlib.patches import Patch
from matplotlib.patheffects import withStroke
from matplotlib.ticker import FuncFormatter, MaxNLocator
import numpy

from .kinds import Kind
from .spectrum import LEAST_KHZ, spectrogram

# Inches. At 100 dots each the picture is 1,000 wide.
DOTS, WIDTH, LEFT, RIGHT = 100, 10.0, 0.85, 1.0
TITLE, STRIP, WAVEFORM, SPECTROGRAM, GAP, TIME_AXIS, LEGEND_LINE = 0.42, 0.26, 1.75, 2.1, 0.16, 0.48, 0.235
PLOT_DOTS = (WIDTH - LEFT - RIGHT) * DOTS

TEXT, SMALL = 10.5, 9.5  # points
LETTER_DOTS = 0.65 * SMALL * DOTS / 72

# Okabe and Ito's colours, which readers of any colour vision tell apart. They read cividis too.
TINTS = {Kind.PITCH: "#E69F00", Kind.NOISE: "#56B4E9"}
OTHER_TINTS = ("#009E73", "#CC79A7", "#F0E442", "#D55E00")
LEVELS, RANGE_DB = "cividis", 80
INK = "#0B2545"
OUTLINE = [withStroke(linewidth=3.4, foreground="white")]  # a black line that is seen on dark ground too

KHZ_TICKS = (0.1, 0.2, 0.5, 1, 2, 5, 10, 20)
PATHS = {
    Kind.PITCH: "by repeating the last pitch cycle",
    Kind.NOISE: "of noise with the energies of the bands",
}


def picture(outage):
    """The figure of an outage in which a frame or more was made up. Time 0 is the seam, where the first begins."""
    channels = outage.channels
    legend = entries(outage)
    height = TITLE + STRIP + channels * (WAVEFORM + SPECTROGRAM + 2 * GAP) + TIME_AXIS + LEGEND_LINE * len(legend)
    figure = Figure(figsize=(WIDTH, height), dpi=DOTS)
    FigureCanvasAgg(figure)
    figure.text(LEFT / WIDTH, 1 - 0.5 * TITLE / height, title(outage), fontsize=12, va="center")
    sizes = [(STRIP, 0)] + channels * [(WAVEFORM, GAP)] + channels * [(SPECTROGRAM, GAP)]
    strip, *panels = placed(figure, TITLE, sizes)
    sounds = [sound(outage, channel) for channel in range(channels)]
    draw_strip(strip, outage)
    draw_waveforms(panels[:channels], sounds, outage)
    draw_spectrograms(panels[channels:], sounds, outage)
    draw_time(panels, outage)
    figure.legend(handles=legend, loc="lower left", bbox_to_anchor=(LEFT / WIDTH, 0), bbox_transform=figure.transFigure,
                  borderaxespad=1, borderpad=0, frameon=False, fontsize=SMALL, handlelength=1.8)
    return figure


# ---- What is shown, in milliseconds from the seam ----

def sound(outage, channel):
    """What was heard and what was made up; what is not finite is left out."""
    pcm = numpy.concatenate([outage.heard(channel), outage.made(channel)])
    pcm[~numpy.isfinite(pcm)] = numpy.nan
    return pcm


def frame_ms(outage):
    return 1000 * outage.frame_samples / outage.rate


def limits(outage):
    """Where the picture begins and ends."""
    return -1000 * outage.heard_samples / outage.rate, len(outage.frames) * frame_ms(outage)


def runs(outage):
    """Frames in a row that one path made: kind, first frame, frame after the last."""
    at = 0
    for kind, frames in itertools.groupby(frame.kind for frame in outage.frames):
        count = len(list(frames))
        yield kind, at, at + count
        at += count


def tint(kind):
    return TINTS.get(kind) or OTHER_TINTS[(kind - 3) % len(OTHER_TINTS)]


def moments(outage):
    """The moments that are marked: millisecond, line style, what is to know of it."""
    if outage.lost_before:
        seam, whose = "the record was written here, %s lost before it" % counted(outage.lost_before), "of the record"
    else:
        seam, whose = "the link dropped here; what is left of it was heard", "before the outage"
    yield 0, "-", "the seam: " + seam
    frame = outage.independent_from()
    if frame is not None:
        yield (frame * frame_ms(outage), "--",
               "second frame of noise: from here on nothing of the history %s matters (ahead of de-emphasis)" % whose)


# ---- Words ----

def milliseconds(ms, _=None):
    return format(int(ms), ",") if ms == int(ms) else "%g" % ms


def counted(frames):
    return "1 frame" if frames == 1 else "%s frames" % format(frames, ",")


def title(outage):
    made = ", ".join("%s by %s" % (format(count, ","), kind) for kind, count in sorted(outage.kinds().items()))
    channels = ("mono", "stereo")[outage.channels - 1]
    return "%s of %g ms made up: %s (%s, %g kHz)" % (
        counted(len(outage.frames)), frame_ms(outage), made, channels, outage.rate / 1000)


def entries(outage):
    """The legend: a line for each path that made a frame and for each moment that is marked."""
    paths = [Patch(facecolor=tint(kind), label="%s: %s made up %s" % (
        kind, counted(count), PATHS.get(kind, "by a path that has no name here")))
        for kind, count in sorted(outage.kinds().items())]
    marks = [Line2D([], [], color="black", linestyle=style, linewidth=1.6, label="%s ms, %s" % (milliseconds(ms), text))
             for ms, style, text in moments(outage)]
    return paths + marks


# ---- Drawing ----

def placed(figure, top, sizes):
    """Axes below each other, the first `top` inches below the figure's top; a size is a height and the gap after it."""
    whole = figure.get_figheight()
    for height, gap in sizes:
        yield figure.add_axes((LEFT / WIDTH, 1 - (top + height) / whole, 1 - (LEFT + RIGHT) / WIDTH, height / whole))
        top += height + gap


def draw_strip(axes, outage):
    """A strip that names what was heard and the path of each frame, as far as there is room for the names."""
    start, end = limits(outage)
    step = frame_ms(outage)
    dots = PLOT_DOTS / (end - start)
    axes.set(xlim=(start, end), ylim=(0, 1))
    axes.axis("off")
    label(axes, "before" if outage.lost_before else "heard", start, 0, dots)
    for kind, first, after in runs(outage):
        axes.axvspan(first * step, after * step, color=tint(kind), linewidth=0)
        if fits(str(kind), step * dots):
            for at in range(first, after):
                label(axes, str(kind), at * step, (at + 1) * step, dots)
                axes.axvline(at * step, color="white", linewidth=1)
        else:
            label(axes, "%s, %s" % (kind, counted(after - first)), first * step, after * step, dots)


def fits(text, dots):
    return len(text) * LETTER_DOTS <= dots


def label(axes, text, left, right, dots):
    if fits(text, (right - left) * dots):
        axes.text((left + right) / 2, 0.47, text, ha="center", va="center", fontsize=SMALL)


def draw_waveforms(panels, sounds, outage):
    start, end = limits(outage)
    step = frame_ms(outage)
    apart = step * PLOT_DOTS / (end - start) >= 6  # frames are wide enough to be told apart
    peak = max((float(numpy.nanmax(numpy.abs(s))) for s in sounds if not numpy.isnan(s).all()), default=0) or 1
    for channel, (axes, samples) in enumerate(zip(panels, sounds)):
        for kind, first, after in runs(outage):
            axes.axvspan(first * step, after * step, color=tint(kind), alpha=0.35, linewidth=0)
        for at in range(1, len(outage.frames) if apart else 0):
            axes.axvline(at * step, color="white", linewidth=1, zorder=1.2)
        axes.plot(*outlined(samples, start, 1000 / outage.rate), color=INK, linewidth=0.9)
        axes.set_ylim(-1.1 * peak, 1.1 * peak)
        axes.yaxis.set_major_locator(MaxNLocator(6, steps=(1, 2, 5, 10)))
        axes.yaxis.set_major_formatter(FuncFormatter(lambda value, _: "%g" % value))
        axes.set_ylabel(named("amplitude", channel, outage), fontsize=TEXT)


def outlined(samples, start, step, most=20000):
    """Times and samples for a line; of more samples than can be seen the least and the largest of each few."""
    few = -(-2 * len(samples) // most)
    if few < 3:
        return start + step * numpy.arange(len(samples)), samples
    groups = numpy.arange(0, len(samples), few)
    pairs = numpy.stack([numpy.fmin.reduceat(samples, groups), numpy.fmax.reduceat(samples, groups)], axis=1)
    return numpy.repeat(start + step * groups, 2), pairs.ravel()


def draw_spectrograms(panels, sounds, outage):
    start, end = limits(outage)
    powers = [spectrogram(numpy.nan_to_num(s), outage.rate, int(PLOT_DOTS)) for s in sounds]
    loudest = max(p.max() for p in powers) or 1
    top = outage.rate / 2000
    scale = Normalize(-RANGE_DB, 0)
    for channel, (axes, power) in enumerate(zip(panels, powers)):
        level = 10 * numpy.log10(numpy.maximum(power / loudest, 10 ** (-RANGE_DB / 10)))
        axes.imshow(level, origin="lower", aspect="auto", cmap=LEVELS, norm=scale, interpolation="bilinear",
                    extent=(start, end, numpy.log10(LEAST_KHZ), numpy.log10(top)))
        ticks = [khz for khz in KHZ_TICKS if khz < top]
        axes.set_yticks(numpy.log10(ticks))
        axes.set_yticklabels(["%g" % khz for khz in ticks])
        axes.set_ylabel(named("frequency (kHz)", channel, outage), fontsize=TEXT)
        draw_levels(axes, scale)


def draw_levels(axes, scale):
    """The scale of a spectrogram's levels, at its right."""
    place = axes.get_position()
    bar = axes.figure.add_axes((place.x1 + 0.12 / WIDTH, place.y0, 0.13 / WIDTH, place.height))
    axes.figure.colorbar(ScalarMappable(scale, LEVELS), cax=bar, format="%d")
    bar.set_ylabel("dB to the loudest", fontsize=SMALL)
    bar.tick_params(labelsize=SMALL)


def named(what, channel, outage):
    return what if outage.channels == 1 else "channel %d\n%s" % (channel, what)


def draw_time(panels, outage):
    """What all panels share: the time axis, which the last one labels, and the moments that are marked."""
    for axes in panels:
        axes.set_xlim(*limits(outage))
        for ms, style, _ in moments(outage):
            # Behind a curve, so as not to hide the seam, and on an image with an outline.
            axes.axvline(ms, color="black", linestyle=style, linewidth=1.6, zorder=1.5, path_effects=OUTLINE)
        axes.tick_params(labelsize=SMALL, labelbottom=axes is panels[-1])
    panels[-1].xaxis.set_major_formatter(FuncFormatter(milliseconds))
    panels[-1].set_xlabel("time (ms), 0 at the seam", fontsize=TEXT)
