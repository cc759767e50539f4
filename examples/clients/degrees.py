"""Coordinates as text, and as the whole numbers of the program: as they are, or degrees times 10**7.

A point in degrees goes to the nearest whole number. A box goes outward, so that it loses nothing that it meets. Of at most
seven decimals neither changes anything. docs/COORDINATES.md says what a distance in degrees is worth.
"""

from decimal import ROUND_CEILING, ROUND_FLOOR, ROUND_HALF_EVEN, Decimal, InvalidOperation

SCALE = 10**7


def scaled(number, rounding=ROUND_HALF_EVEN, power=7):
    """A number or its text times 10**7 (or another power), as a whole number."""
    try:
        return int(Decimal(str(number)).quantize(Decimal(1).scaleb(-power), rounding).scaleb(power))
    except (InvalidOperation, ValueError, OverflowError):
        raise ValueError(f"{str(number)!r} is no number of degrees") from None


def whole(number):
    """A whole number or its text, as an int; 5.0 is none."""
    try:
        return int(str(number))
    except ValueError:
        raise ValueError(f"{str(number)!r} is no whole number") from None


class Whole:
    """Whole numbers, as they are."""

    @staticmethod
    def point(words):
        return tuple(map(whole, words))

    box = point
    square = staticmethod(whole)

    @staticmethod
    def shown(number):
        return number

    shown_square = shown


class Degrees:
    """Degrees times 10**7; squares of distances times 10**14."""

    @staticmethod
    def point(words):
        return tuple(map(scaled, words))

    @staticmethod
    def box(words):
        x1, y1, x2, y2 = words
        low = [min(scaled(a, ROUND_FLOOR), scaled(b, ROUND_FLOOR)) for a, b in ((x1, x2), (y1, y2))]
        high = [max(scaled(a, ROUND_CEILING), scaled(b, ROUND_CEILING)) for a, b in ((x1, x2), (y1, y2))]
        return (*low, *high)

    @staticmethod
    def square(word):
        return scaled(word, ROUND_FLOOR, 14)

    @staticmethod
    def shown(number):
        return number / SCALE

    @staticmethod
    def shown_square(number):
        return number / SCALE**2
