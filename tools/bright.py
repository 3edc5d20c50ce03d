#!/usr/bin/env python3
"""Writes examples/bright.slt, a list file of document 01, and examples/bright.txt, its names by entry number.

    tools/bright.py [ROOT]

With ROOT they are written below that folder, and not in the tree.

Places and motions are those of the Hipparcos catalogue in its newer reduction, at J2000, as catalogues print them: the
motion in right ascension is along the sky, with the cosine of the declination in it. Document 01 asks for the motion of
the coordinate, without a cosine, so it is divided out here. Beside PyEphem's list, of the older reduction, each star is
within 0.03″ and 3 mas a year; Castor, a close pair, within 0.14″ and 15 mas a year.
"""
import math
import struct
import sys
from decimal import Decimal
from pathlib import Path

# name; right ascension h m s; declination ° ′ ″; motion in right ascension (with the cosine) and in declination, mas a
# year
STARS = """
Sirius      06 45 08.917  -16 42 58.02   -546.01 -1223.07
Canopus     06 23 57.110  -52 41 44.38     19.93    23.24
Arcturus    14 15 39.672  +19 10 56.67  -1093.39 -2000.06
Vega        18 36 56.336  +38 47 01.28    200.94   286.23
Capella     05 16 41.359  +45 59 52.77     75.25  -426.89
Rigel       05 14 32.272  -08 12 05.90      1.31     0.50
Procyon     07 39 18.119  +05 13 29.96   -714.59 -1036.80
Achernar    01 37 42.845  -57 14 12.31     87.00   -38.24
Betelgeuse  05 55 10.305  +07 24 25.43     27.54    11.30
Altair      19 50 46.999  +08 52 05.96    536.23   385.29

Aldebaran   04 35 55.239  +16 30 33.49     63.45  -188.94
Antares     16 29 24.460  -26 25 55.21    -12.11   -23.30
Spica       13 25 11.579  -11 09 40.75    -42.35   -30.67
Pollux      07 45 18.950  +28 01 34.32   -626.55   -45.80
Fomalhaut   22 57 39.046  -29 37 20.05    328.95  -164.67
Deneb       20 41 25.915  +45 16 49.22      2.01     1.85
Regulus     10 08 22.311  +11 58 01.95   -248.73     5.59
Castor      07 34 35.873  +31 53 17.82   -191.45  -145.19
Polaris     02 31 49.095  +89 15 50.79     44.48   -11.85
Alioth      12 54 01.750  +55 57 35.36    111.91    -8.24

Dubhe       11 03 43.672  +61 45 03.72   -134.11   -34.70
"""

MICROARCSECONDS = 1_000_000  # in an arcsecond


def seconds(large: str, minutes: str, small: str) -> Decimal:
    """Hours or degrees, minutes and seconds in seconds, with the sign of the first."""
    size = abs(int(large)) * 3600 + int(minutes) * 60 + Decimal(small)
    return -size if large.startswith("-") else size


def star(row: str) -> tuple[str, int, int, int, int]:
    """Name, right ascension and declination in µas, their motions in µas a year."""
    name, h, m, s, degrees, minutes, small, along, up = row.split()
    declination = int(seconds(degrees, minutes, small) * MICROARCSECONDS)
    cosine = math.cos(math.radians(declination / MICROARCSECONDS / 3600))
    coordinate = round(float(along) * 1000 / cosine)
    return name, int(seconds(h, m, s) * 15 * MICROARCSECONDS), declination, coordinate, int(Decimal(up) * 1000)


def main() -> None:
    folder = (Path(sys.argv[1]) if len(sys.argv) > 1 else Path(__file__).resolve().parent.parent) / "examples"
    folder.mkdir(parents=True, exist_ok=True)
    stars = [star(row) for row in STARS.splitlines() if row]
    file = b"SLT" + struct.pack("<HH", 1, len(stars))
    file += b"".join(struct.pack("<qqii", *numbers) for _, *numbers in stars)
    (folder / "bright.slt").write_bytes(file)
    (folder / "bright.txt").write_text("".join(f"{entry} {name}\n" for entry, (name, *_) in enumerate(stars)))


if __name__ == "__main__":
    main()
