#!/usr/bin/env python3
"""Makes shikoku.csv: the corners of the coast of Shikoku, in degrees times 10**7, longitude before latitude.

    apt-get install gmt-gshhg-low python3-h5py && /usr/bin/python3 examples/coast/coast.py

The shoreline is GSHHG's, in intermediate resolution (LGPL 3 or later; so is shikoku.csv). The file has shorelines cut along
bins, and this island lies in one bin.
"""

from pathlib import Path

import h5py

SHORES = "/usr/share/gmt-gshhg/binned_GSHHS_i.nc"
SHIKOKU = 56  # of the shorelines, by area
BIN, SCALE = 5, 10**7


def corners(shores):
    """The corners of the island, in order. The last one is joined to the first."""
    first, count = shores["Id_of_first_segment_in_a_bin"][()], shores["N_segments_in_a_bin"][()]
    start, packed = shores["Id_of_first_point_in_a_segment"][()], shores["Embedded_npts_levels_exit_entry_for_a_segment"][()]
    segment = list(shores["Id_of_GSHHS_ID"][()]).index(SHIKOKU)
    place = next(bin for bin in range(len(first)) if first[bin] <= segment < first[bin] + count[bin])
    west, south = place % (360 // BIN) * BIN, 90 - (place // (360 // BIN) + 1) * BIN
    points = slice(start[segment], start[segment] + (packed[segment] >> 9) - 1)
    x, y = (shores[f"Relative_{name}_from_SW_corner_of_bin"][points].astype("u2") for name in ("longitude", "latitude"))
    return zip(west + x * (BIN / 65535), south + y * (BIN / 65535))


with h5py.File(SHORES) as shores, open(Path(__file__).with_name("shikoku.csv"), "w") as file:
    for corner in corners(shores):
        file.write(",".join(str(round(degrees * SCALE)) for degrees in corner) + "\n")
