"""What the tests compare with: scans of a plain list of (ID, box), and boxes drawn at random."""

GREATEST = 2**63 - 1  # distances are held at it


def meets(a, b):
    return a[0] <= b[2] and b[0] <= a[2] and a[1] <= b[3] and b[1] <= a[3]


def lies_in(a, b):
    return b[0] <= a[0] and a[2] <= b[2] and b[1] <= a[1] and a[3] <= b[3]


def distance(box, point):
    across = [max(box[k] - point[k], 0, point[k] - box[k + 2]) for k in (0, 1)]
    return min(across[0] ** 2 + across[1] ** 2, GREATEST)


def inside(items, box):
    return sorted(number for number, b in items if lies_in(b, box))


def hit(items, box):
    return sorted(number for number, b in items if meets(b, box))


def at(items, point):
    return hit(items, (*point, *point))


def within(items, point, limit):
    return sorted(number for number, b in items if distance(b, point) <= limit)


def near(items, point, most):
    """The nearest so many: ID, box and squared distance, by distance, then by corners, then by ID."""
    keys = sorted((distance(b, point), b, number) for number, b in items)
    return [(number, b, d) for d, b, number in keys[:most]]


def a_number(draw, wide):
    """Mostly a small one, so that many touch and tie; now and then one at the end of the range."""
    if draw.random() < 0.02:
        return draw.choice([-(2**63) + draw.randrange(3), 2**63 - 1 - draw.randrange(3)])
    return draw.randrange(-wide, wide)


def a_point(draw, wide=60):
    return a_number(draw, wide), a_number(draw, wide)


def a_box(draw, wide=50):
    """The lower corner first."""
    (x, y), (across, up) = a_point(draw, wide), (draw.randrange(9), draw.randrange(9))
    return x, y, min(x + across, 2**63 - 1), min(y + up, 2**63 - 1)


def turned(draw, box):
    """The same box by any two opposite corners."""
    x1, y1, x2, y2 = box
    if draw.random() < 0.5:
        x1, x2 = x2, x1
    if draw.random() < 0.5:
        y1, y2 = y2, y1
    return x1, y1, x2, y2
