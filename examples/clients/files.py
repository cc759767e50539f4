"""Reads rectangles from CSV and boxes from GeoJSON: each an (ID, box). A fault is a ValueError with its place.

    boxes.load(read("islands.csv", Degrees))
"""

import csv
import json
from decimal import Decimal

from degrees import Degrees, Whole, whole
from vaikrone import STEP, Progress


def read(path, units=Whole, tell=None):
    """The rectangles of a file, by the end of its name: .csv, or .json or .geojson."""
    try:
        return read_csv(path, units, tell) if str(path).lower().endswith(".csv") else read_geojson(path, units)
    except (UnicodeError, csv.Error, json.JSONDecodeError, RecursionError) as fault:
        raise ValueError(f"{path}: {fault}") from None


def read_csv(path, units=Whole, tell=None):
    """Lines ID,X1,Y1,X2,Y2, two opposite corners. A first line that begins with no digit is a heading."""
    rows, tell = [], tell or Progress()
    with open(path, newline="", encoding="utf-8-sig") as file:
        lines = csv.reader(file)
        for words in lines:
            if not words or (lines.line_num == 1 and not words[0].strip()[:1].isdigit()):
                continue
            try:
                number, *box = words
                if len(box) != 4:
                    raise ValueError(f"ID,X1,Y1,X2,Y2 is wanted, and not {','.join(words)}")
                rows.append((whole(number), units.box(box)))
                if len(rows) % STEP == 0:
                    tell("read", len(rows))
            except ValueError as fault:
                raise ValueError(f"{path}, line {lines.line_num}: {fault}") from None
    return rows


def read_geojson(path, units=Degrees):
    """Of each feature its `bbox`, or else the least box around its coordinates.

    Its ID is the feature's `id`, or its property `id`, or its place in the file, from 0 on.
    """
    with open(path, encoding="utf-8-sig") as file:
        top = json.load(file, parse_float=Decimal)
    features, rows = top.get("features", [top]) if isinstance(top, dict) else None, []
    if not isinstance(features, list):
        raise ValueError(f"{path}: a feature or a collection of features is wanted")
    for place, feature in enumerate(features):
        try:
            number = feature.get("id", (feature.get("properties") or {}).get("id", place))
            rows.append((whole(number), units.box(box_of(feature))))
        except (ValueError, TypeError, AttributeError, LookupError) as fault:
            raise ValueError(f"{path}, feature {place}: {fault}") from None
    return rows


def box_of(feature):
    if "bbox" in feature:
        bbox = feature["bbox"]
        if len(bbox) not in (4, 6):
            raise ValueError(f"a box has 4 numbers, or 6 with heights, and not {len(bbox)}")
        half = len(bbox) // 2
        west, south, east, north = *bbox[:2], *bbox[half : half + 2]
        if west > east:
            raise ValueError(f"the box from {west} to {east} goes over the 180th meridian: cut it in two")
        return west, south, east, north
    positions = list(positions_of(feature.get("geometry", feature)))
    if not positions:
        raise ValueError("there are no coordinates")
    xs, ys = [p[0] for p in positions], [p[1] for p in positions]
    return min(xs), min(ys), max(xs), max(ys)


def positions_of(part):
    """All positions of a geometry, of a collection of them, or of a list of coordinates."""
    if isinstance(part, dict):
        part = part.get("coordinates") or part.get("geometries") or []
    if isinstance(part, list):
        if part and not isinstance(part[0], (list, dict)):
            yield part
        else:
            for inner in part:
                yield from positions_of(inner)
