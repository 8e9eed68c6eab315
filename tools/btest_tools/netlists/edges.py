"""The shapes that KiCad draws the edge of a board with, as lines from point to point."""

from __future__ import annotations

import math
from typing import List, Optional

from btest_tools.places import Line, Point

STEP = math.radians(6)  # of the straight pieces in place of an arc
PIECES = 24  # straight pieces in place of a curve
FLAT = 1e-9  # square millimeters; three points with a triangle as small as that are on a line


def swept(center: Point, begin: Point, angle: float) -> Line:
    """Returns an arc from a point about a center, by an angle in radians, from x toward y."""
    radius = math.hypot(begin[0] - center[0], begin[1] - center[1])
    first = math.atan2(begin[1] - center[1], begin[0] - center[0])
    count = max(1, math.ceil(abs(angle) / STEP))
    angles = [first + angle * at / count for at in range(count + 1)]
    return [
        (center[0] + radius * math.cos(turn), center[1] + radius * math.sin(turn))
        for turn in angles
    ]


def arc_through(begin: Point, middle: Point, end: Point) -> Line:
    """Returns the arc from a point through another to a third."""
    across, down = middle[0] - begin[0], middle[1] - begin[1]
    across_all, down_all = end[0] - begin[0], end[1] - begin[1]
    area = 2 * (across * down_all - down * across_all)
    if abs(area) < FLAT:
        return [begin, middle, end]
    square, square_all = across**2 + down**2, across_all**2 + down_all**2
    center = (
        begin[0] + (down_all * square - down * square_all) / area,
        begin[1] + (across * square_all - across_all * square) / area,
    )
    first, last = (math.atan2(y - center[1], x - center[0]) for x, y in (begin, end))
    turn = (last - first) % math.tau
    return swept(center, begin, turn if area > 0 else turn - math.tau)


def curve(points: Line) -> Line:
    """Returns a Bezier curve of four points."""
    line = []
    for at in range(PIECES + 1):
        there = at / PIECES
        here = 1 - there
        weights = here**3, 3 * here**2 * there, 3 * here * there**2, there**3
        line.append(
            (
                sum(weight * x for weight, (x, _) in zip(weights, points)),
                sum(weight * y for weight, (_, y) in zip(weights, points)),
            )
        )
    return line


def edge(kind: bytes, points: List[Point], turn: Optional[float]) -> Line:
    """Returns the line of a shape. KiCad 5 has an arc as its center, an end and an angle."""
    if kind == b"arc" and turn is not None and len(points) == 2:
        return swept(points[0], points[1], math.radians(max(-360.0, min(turn, 360.0))))
    if kind == b"arc" and len(points) == 3:
        return arc_through(*points)
    if kind == b"circle" and len(points) == 2:
        return swept(points[0], points[1], math.tau)
    if kind == b"rect" and len(points) == 2:
        (left, top), (right, bottom) = points
        return [(left, top), (right, top), (right, bottom), (left, bottom), (left, top)]
    if kind == b"curve" and len(points) == 4:
        return curve(points)
    return points + points[:1] if kind == b"poly" else points
