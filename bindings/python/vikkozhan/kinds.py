"""By which path a frame was made."""
import enum


class Kind(enum.IntEnum):
    """The path that made a frame. A later library may have kinds that have no name here: these keep their number."""

    NONE = 0
    PITCH = 1
    NOISE = 2

    @classmethod
    def _missing_(cls, value):
        if not isinstance(value, int) or value < 0:
            return None
        kind = int.__new__(cls, value)
        kind._name_ = "KIND_%d" % value
        kind._value_ = value
        return kind

    def __reduce_ex__(self, protocol):
        return Kind, (self.value,)  # by number: a kind without a name has to come back too

    def __str__(self):
        """'pitch', 'noise'; 'kind 7' where there is no name."""
        return self.name.lower().replace("_", " ")

    def __format__(self, spec):
        return format(str(self), spec)
