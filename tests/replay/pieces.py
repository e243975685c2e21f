"""When a piece lies inside its data, and pieces at and beside the borders of that."""
from script import LARGEST


# Whether a piece lies inside data of so many bytes: an empty one at the end does not.
def is_inside(start, length, data_length):
    return start < data_length and length <= data_length - start


# Pieces at and beside the borders of data of ten bytes or more, as (start, length). Some sums pass 2^64.
def border_pieces(n):
    return [(0, 0), (0, n), (0, n + 1), (n - 1, 0), (n - 1, 1), (n - 1, 2), (n, 0), (n, 1), (n + 1, 0), (5, n - 5), (5, n - 4),
            (LARGEST, 0), (LARGEST, 1), (LARGEST, 2), (LARGEST, LARGEST), (LARGEST - 4, 10), (0, LARGEST), (1, LARGEST),
            (5, LARGEST - 4), (5, LARGEST - 5), (n, LARGEST - n + 1), (n - 1, LARGEST), (2**32, 1), (2**63, 2**63)]
