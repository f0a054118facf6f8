"""The plane of rows: the one that the options say, or else one that suits where the rows are."""

from typing import Optional, Tuple

from ..errors import SourceError
from ..planes import Degrees, Metres, Plane, stretch_of
from .options import Options

PER_DEGREE = {"degrees": 1000, "metres": 100_000}

# A plane of metres that nobody asked for may be wrong by so much east and west.
MOST_STRETCH = 0.25


def latitude_text(latitude: float) -> str:
    """A latitude as people write it."""
    return f"{abs(latitude):.4g}°{'S' if latitude < 0 else 'N'}"


def plane_of(options: Options, usual: Optional[str], bounds: Tuple[float, float]) -> Plane:
    """The plane of rows between two latitudes. Refuses to choose one where their files are usually in different ones, or where metres
    would be wrong by more than a quarter."""
    south, north = bounds
    if options.middle is not None:
        return Metres(options.middle)
    if options.per_degree is not None:
        return Degrees(options.per_degree)
    if not options.metres and usual is None:
        raise SourceError("the files are usually in different planes: give --metres, --middle LATITUDE or --per-degree N")
    if not options.metres and usual == "degrees":
        return Degrees(PER_DEGREE["degrees"])
    plane = Metres(round((south + north) / 2))
    stretch = stretch_of(plane, -180, south, 180, north)
    if not options.metres and stretch > MOST_STRETCH:
        raise SourceError(
            f"the rows go from {latitude_text(south)} to {latitude_text(north)}: in metres round latitude {plane.middle} a way "
            f"east or west would be up to {percent(stretch)} too long or too short. --per-degree {PER_DEGREE['metres']} makes degrees, "
            "--box leaves out what is far away, --max-speed what no object can have reached, and --metres takes metres all the same"
        )
    return plane


def percent(part: float) -> str:
    """A part as a percentage."""
    return f"{part * 100:.0f} %" if part * 100 >= 1 else "less than 1 %"


def plane_text(plane: Plane, bounds: Tuple[float, float]) -> str:
    """What a plane is, and how far metres of it are wrong where rows are."""
    if isinstance(plane, Degrees):
        return plane.text
    return f"{plane.text}: a way east or west is {up_to(stretch_of(plane, -180, bounds[0], 180, bounds[1]))} too long or too short"


def up_to(part: float) -> str:
    """At most such a part."""
    return percent(part) if part < 0.01 else f"up to {percent(part)}"
