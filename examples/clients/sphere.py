"""Places on the Earth: metres between them, which lie near, and their points on the sphere.

A place is (longitude, latitude) in degrees. The functions over boxes take `Boxes` of places, put in by `box_of`. The Earth is a
sphere of the mean radius here: metres are right to half a percent.
"""

from math import asin, cos, degrees, pi, radians, sin, sqrt

from degrees import SCALE, Degrees

RADIUS = 6371008.8  # metres
MARGIN = 1e-7  # degrees, more than all rounding


def metres(a, b):
    """The way along the sphere between two places, by the haversine formula."""
    (x, y), (other_x, other_y) = (map(radians, place) for place in (a, b))
    half = sin((other_y - y) / 2) ** 2 + cos(y) * cos(other_y) * sin((other_x - x) / 2) ** 2
    return 2 * RADIUS * asin(min(1, sqrt(half)))


def box_of(place):
    """A place as a box of the index."""
    return Degrees.point((*place, *place))


def around(place, reach):
    """Boxes in degrees that hold all places within so many metres: one, or two where the 180th meridian lies between."""
    (x, y), angle = place, degrees(reach / RADIUS) + MARGIN
    south, north = max(y - angle, -90), min(y + angle, 90)
    if south == -90 or north == 90:
        return [(-180, south, 180, north)]  # a pole is within reach, and with it each longitude
    wide = degrees(asin(sin(radians(angle)) / cos(radians(y))))
    west, east = x - wide, x + wide
    if west < -180:
        return [(west + 360, south, 180, north), (-180, south, east, north)]
    if east > 180:
        return [(west, south, 180, north), (-180, south, east - 360, north)]
    return [(west, south, east, north)]


def within(boxes, place, reach):
    """The places within so many metres, an (ID, metres) each, the nearest first: a box first, then the distance."""
    found = []
    for box in around(place, reach):
        for number, (x, y, _, _) in boxes.hit(Degrees.box(box)):
            found.append((metres(place, (x / SCALE, y / SCALE)), number))
    return [(number, away) for away, number in sorted(found) if away <= reach]


def nearest(boxes, place, most):
    """The nearest so many places, an (ID, metres) each: within a reach that grows until it holds them."""
    reach = 1000
    while True:
        found = within(boxes, place, reach)
        if len(found) >= most or reach > pi * RADIUS:
            return found[:most]
        reach *= 4


def on_sphere(place):
    """The place as three whole coordinates, in centimetres from the middle of the Earth."""
    x, y = map(radians, place)
    return tuple(round(100 * RADIUS * part) for part in (cos(y) * cos(x), cos(y) * sin(x), sin(y)))
