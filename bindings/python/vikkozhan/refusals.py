"""Why a call was refused, and what to do about it."""

UNKNOWN = ("no number of this version", "look it up in the README of the library that is loaded")

# number: what is wrong, what to do about it
TEXTS = {
    1: ("lm above 3", "set it for the frame: 0, 1, 2, 3 for 120, 240, 480, 960 samples at 48 kHz"),
    2: ("channels not 1 or 2", "set it for the stream"),
    3: ("start above 20", "set the stream's start band: 0 for CELT alone"),
    4: ("end not above start, or above 21", "set the stream's end band. 0 is not short for 21 here: write 21"),
    5: ("downsample not 1, 2, 3, 4 or 6",
        "these give 48,000, 24,000, 16,000, 12,000 and 8,000 Hz; resample for any other rate"),
    6: ("loss count 4,294,967,295",
        "the count can't rise further: the outage outlasted it. Start from the state of the next frame that arrives"),
    7: ("start 0, loss count 1 to 4, lag outside 102 to 720",
        "the lag was not carried from the loss before: take it from there, or set the loss count to 0 and it is"
        " searched for anew"),
    8: ("filter period outside 15 to 1,022, or tapset above 2",
        "where no filter was sent: period 15, gain 0, tapset 0"),
    9: ("history not 4,336 samples", "lend both channels' 2,168, in mono too"),
    10: ("PCM buffer shorter than needed", "lend channels × N / downsample; 1,920 is always enough"),
    11: ("the file's last record is cut short",
         "every record before it was answered. Send the last one again, whole"),
}


class Refused(Exception):
    """A call was refused, and nothing was changed by it.

    number: the first reason that applies
    wrong:  what it means
    remedy: what to do about it
    """

    def __init__(self, number):
        super().__init__(number)
        self.number = number
        self.wrong, self.remedy = TEXTS.get(number, UNKNOWN)

    def __str__(self):
        return "refused with number %d: %s. What to do: %s" % (self.number, self.wrong, self.remedy)
