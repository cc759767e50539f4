"""What each call is to answer, by a plain scan of a list of (ID, box)."""

GREATEST = 2**63 - 1


def upright(box):
    x1, y1, x2, y2 = map(int, box)
    return min(x1, x2), min(y1, y2), max(x1, x2), max(y1, y2)


def intersects(a, b):
    return a[0] <= b[2] and b[0] <= a[2] and a[1] <= b[3] and b[1] <= a[3]


def contains(a, b):
    return a[0] <= b[0] and b[2] <= a[2] and a[1] <= b[1] and b[3] <= a[3]


def distance(box, point):
    x, y = (max(box[k] - point[k], 0, point[k] - box[k + 2]) for k in (0, 1))
    return min(x * x + y * y, GREATEST)


def selected(items, box, predicate):
    asked, holds = upright(box), {"intersects": intersects, "contains": contains}[predicate]
    return sorted(number for number, other in items if holds(asked, other))


def within(items, point, limit):
    return sorted(number for number, box in items if distance(box, point) <= limit)


def neighbours(items, point):
    """All as (distance, box, ID), in the order of neighbours."""
    return sorted((distance(box, point), box, number) for number, box in items)


def pairs(items):
    return sorted(
        tuple(sorted((items[i][0], items[k][0])))
        for i in range(len(items))
        for k in range(i)
        if intersects(items[i][1], items[k][1])
    )


def pairs_with(items, others):
    return sorted((n, m) for n, box in items for m, other in others if intersects(box, other))
