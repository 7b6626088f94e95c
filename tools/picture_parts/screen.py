"""Elements of which something changes in time: as a still of one moment, or as one that moves by SVG itself."""
import bisect
import dataclasses

# How long the last moment stands before all begins again, in beats.
PAUSE = 3
# An event begins this much before its moment, and is over at its moment.
EVENT = 0.9
NEVER = float("inf")


@dataclasses.dataclass(frozen=True)
class Track:
    """The values of an attribute in time, rising from time 0 on. They are places if the attribute is `transform`."""

    attribute: str
    keys: list[tuple[float, str]]

    def value_at(self, time: float) -> str:
        """Returns the value that was the last to come."""
        return self.keys[bisect.bisect(self.keys, time, key=lambda key: key[0]) - 1][1]

    def attribute_at(self, time: float) -> str:
        """Returns the attribute as it is written in an element."""
        value = self.value_at(time)
        return f'{self.attribute}="{f"translate({value})" if self.attribute == "transform" else value}"'


def presence(begin: float, end: float = NEVER) -> Track:
    """Returns a track of something that is there from one time to another."""
    keys = [(0.0, "0")] if begin > 0 else []
    keys.append((begin, "1"))
    if end < NEVER:
        keys.append((end, "0"))
    return Track("opacity", keys)


def is_absent(track: Track, time: float) -> bool:
    """Returns whether a track is a presence, and nothing is there at this time."""
    return track.attribute == "opacity" and track.value_at(time) == "0"


@dataclasses.dataclass(frozen=True)
class Still:
    """A picture of one moment."""

    moment: int

    def element(self, tag: str, fixed: str, tracks: list[Track], inner: str = "") -> str:
        """Returns an element as it is at the moment, or nothing if it is not there."""
        if any(is_absent(track, self.moment) for track in tracks):
            return ""
        changing = (track.attribute_at(self.moment) for track in tracks if track.attribute != "opacity")
        return f"<{' '.join([tag, fixed, *changing])}>{inner}</{tag}>"


@dataclasses.dataclass(frozen=True)
class Moving:
    """A picture that moves, over and over. A viewer that shows no motion shows its last moment."""

    length: int
    beat: float

    def element(self, tag: str, fixed: str, tracks: list[Track], inner: str = "") -> str:
        """Returns an element with its changes."""
        last = (track.attribute_at(self.length) for track in tracks)
        changes = "".join(self.change(track) for track in tracks if len(track.keys) > 1)
        return f"<{' '.join([tag, fixed, *last])}>{inner}{changes}</{tag}>"

    def change(self, track: Track) -> str:
        """Returns the animation of an attribute: places are walked to, all else changes at once."""
        total = self.length + PAUSE
        keys = track.keys if track.attribute != "transform" else [*track.keys, (total, track.keys[-1][1])]
        tag, mode = ("animateTransform", "linear") if track.attribute == "transform" else ("animate", "discrete")
        kind = ' type="translate"' if track.attribute == "transform" else ""
        times = ";".join(f"{time / total:.6f}".rstrip("0").rstrip(".") for time, _ in keys)
        values = ";".join(value for _, value in keys)
        return (
            f'<{tag} attributeName="{track.attribute}"{kind} calcMode="{mode}" dur="{total * self.beat:g}s" '
            f'repeatCount="indefinite" keyTimes="{times}" values="{values}"/>'
        )
