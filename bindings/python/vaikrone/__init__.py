"""An R*-tree over rectangles with 64-bit IDs, whose answers are proved.

>>> from vaikrone import Index
>>> index = Index([(0, 0, 2, 2), (5, 5, 9, 9)])
>>> index.query((1, 1, 3, 3)).tolist()
[0]
>>> ids, squared_distances = index.nearest((4, 4), 2)
>>> ids.tolist(), squared_distances.tolist()
([1, 0], [2, 8])
"""

from ._index import Index

__all__ = ["Index"]
