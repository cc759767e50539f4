#!/usr/bin/env python3
"""Makes islands.csv: the boxes of the largest islands, in degrees times 10**7, by area.

    apt-get install gmt-gshhg-low python3-h5py && /usr/bin/python3 examples/map/islands.py

The shorelines are GSHHG's, in low resolution (LGPL 3 or later; so is islands.csv). The file has them cut along bins of ten
degrees, each piece with the number of its polygon. A box over the 180th meridian is cut in two.
"""

from pathlib import Path

import h5py
import numpy

SHORES = "/usr/share/gmt-gshhg/binned_GSHHS_l.nc"
COUNT = 4000
CONTINENT = 7e6  # square kilometres; what is smaller is an island
SCALE = 10**7


def pieces(shores):
    """Of each piece of a shore of the sea: its polygon, and its longitudes from 0 to 360 and latitudes."""
    first, count = shores["Id_of_first_segment_in_a_bin"][()], shores["N_segments_in_a_bin"][()]
    start, packed = shores["Id_of_first_point_in_a_segment"][()], shores["Embedded_npts_levels_exit_entry_for_a_segment"][()]
    polygon = shores["Id_of_GSHHS_ID"][()]
    x, y = (shores[f"Relative_{name}_from_SW_corner_of_bin"][()].astype("u2") for name in ("longitude", "latitude"))
    side = shores["Bin_size_in_minutes"][0] // 60
    for place in range(len(first)):
        west, south = place % (360 // side) * side, 90 - (place // (360 // side) + 1) * side
        for segment in range(first[place], first[place] + count[place]):
            if packed[segment] >> 6 & 7 == 1:
                points = slice(start[segment], start[segment] + (packed[segment] >> 9))
                yield polygon[segment], west + x[points] * (side / 65535), south + y[points] * (side / 65535)


def spans(xs):
    """From where to where an island lies, from -180 to 180: the shorter way round."""
    turned = numpy.where(xs >= 180, xs - 360, xs)
    if numpy.ptp(xs) < 180 and xs.min() < 180 <= xs.max():
        return [(xs.min(), 180), (-180, turned[turned < 0].max())]
    return [(turned.min(), turned.max())]


def boxes(shores, count):
    """The boxes of so many islands, the largest first."""
    area = shores["The_km_squared_area_of_polygons"][()]
    islands = {}
    for polygon, xs, ys in pieces(shores):
        if area[polygon] < CONTINENT:
            islands.setdefault(polygon, []).append((xs, ys))
    for polygon in sorted(islands, key=lambda number: -area[number])[:count]:
        xs, ys = (numpy.concatenate(parts) for parts in zip(*islands[polygon]))
        for west, east in spans(xs):
            yield tuple(round(degrees * SCALE) for degrees in (west, ys.min(), east, ys.max()))


def main():
    with h5py.File(SHORES) as shores, open(Path(__file__).with_name("islands.csv"), "w") as file:
        for number, box in enumerate(boxes(shores, COUNT), 1):
            file.write(",".join(map(str, [number, *box])) + "\n")


if __name__ == "__main__":
    main()
