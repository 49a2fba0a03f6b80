"""The layout of corners without coordinates: the same each time, and joined corners near each other."""

import itertools
import math
import random
import unittest

import repository  # noqa: F401

from postman.picture.layout import lay_out


def grid(width, height):
    corners = {(x, y): y * width + x for y in range(height) for x in range(width)}
    pairs = [
        (corners[x, y], corners[place])
        for x, y in corners
        for place in ((x + 1, y), (x, y + 1))
        if place in corners
    ]
    return len(corners), pairs


def apart(points, pair):
    return math.dist(points[pair[0]], points[pair[1]])


class Layout(unittest.TestCase):
    def test_the_same_each_time(self):
        count, pairs = grid(6, 5)
        again = [(b, a) for a, b in pairs]
        random.Random(1).shuffle(again)
        self.assertEqual(lay_out(count, pairs), lay_out(count, again + pairs[:3]))

    def test_joined_corners_lie_near(self):
        path, star = [(k, k + 1) for k in range(8)], [(0, k) for k in range(1, 7)]
        for count, pairs in (grid(5, 4), grid(8, 8), (9, path), (7, star)):
            points = lay_out(count, pairs)
            joined = [apart(points, pair) for pair in pairs]
            others = [apart(points, pair) for pair in itertools.combinations(range(count), 2) if pair not in pairs]
            self.assertLess(max(joined), 1.6)
            self.assertGreater(min(joined), 0.5)
            self.assertGreater(sum(others) / len(others), 1.4 * sum(joined) / len(joined))

    def test_a_grid_unfolds(self):
        count, pairs = grid(6, 4)
        points = lay_out(count, pairs)
        across = math.dist(points[0], points[count - 1])
        # Corner to corner it is as far as hops say, but for the bends that a square grid has.
        self.assertGreater(across, 0.6 * (5 + 3))

    def test_no_two_corners_on_one_point(self):
        everyone = list(itertools.combinations(range(8), 2))
        star = [(0, k) for k in range(1, 8)]
        for pairs in (everyone, star, []):
            points = lay_out(8, pairs)
            self.assertGreater(min(apart(points, pair) for pair in itertools.combinations(range(8), 2)), 0.2)

    def test_pieces_lie_apart(self):
        points = lay_out(9, [(0, 1), (1, 2), (2, 3), (4, 5), (5, 6)])
        pieces = ([0, 1, 2, 3], [4, 5, 6], [7], [8])
        for one, other in itertools.combinations(pieces, 2):
            self.assertGreater(min(apart(points, pair) for pair in itertools.product(one, other)), 0.9)

    def test_loops_and_single_corners(self):
        self.assertEqual(lay_out(1, [(0, 0)]), ((0.0, 0.0),))
        self.assertEqual(lay_out(2, [(0, 1)]), lay_out(2, [(0, 0), (0, 1), (1, 1)]))


if __name__ == "__main__":
    unittest.main()
