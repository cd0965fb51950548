"""The power of a sound over time and frequency, for a picture."""
import numpy

WINDOW_SECONDS = 0.02  # long enough to tell harmonics 100 Hz apart
LEAST_KHZ = 0.05
ROWS = 170
FINER = 8  # times, by which the transform's frequencies lie closer than the window's length gives


def spectrogram(sound, rate, columns):
    """Mean power in ROWS bands, equally wide on a logarithmic scale from LEAST_KHZ to half the rate, at so many moments
    as there are columns."""
    size = int(rate * WINDOW_SECONDS)
    window = numpy.hanning(size)
    padded = numpy.pad(sound, (size // 2, size), mode="reflect")  # no step at either end, which would show as a click
    starts = numpy.linspace(0, len(sound) - 1, columns).astype(int)
    pieces = padded[starts[:, None] + numpy.arange(size)] * window
    power = numpy.abs(numpy.fft.rfft(pieces, FINER * size)) ** 2
    edges = numpy.geomspace(1000 * LEAST_KHZ, rate / 2, ROWS + 1) * FINER * size / rate
    return band_means(power, edges).T


def band_means(power, edges):
    """The mean of each row of `power` between neighbouring edges, which need not be whole."""
    total = numpy.concatenate([numpy.zeros((len(power), 1)), numpy.cumsum(power, axis=1)], axis=1)
    below = numpy.minimum(edges.astype(int), power.shape[1] - 1)
    at_edges = total[:, below] + (edges - below) * power[:, below]
    return numpy.diff(at_edges, axis=1) / numpy.diff(edges)
