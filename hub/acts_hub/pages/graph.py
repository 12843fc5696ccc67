"""The graph of a run's jobs: where each stands, and which lines join them."""
from __future__ import annotations

import dataclasses
from collections.abc import Mapping, Sequence

ROW, HEAD, PAD = 26, 34, 8  # of a node: the height of a leg and of its head, and the space inside
WIDTHS = {1: (300, 0), 2: (260, 90), 3: (250, 70)}  # of a node and of the gap to the next, by the number of columns
WIDTH, GAP = 200, 44  # the same for more columns
GAP_DOWN, MARGIN = 20, 6
LONG = 4  # columns beyond which a graph keeps its size
MOST_LEGS = 10  # legs of a job that are drawn; the others are counted
LANE, STEP = 14, 38  # of the narrow graph: between two lanes, and between two rows


@dataclasses.dataclass(frozen=True)
class Leg:
    """A leg of a job, or the job itself, as it is drawn."""

    name: str
    state: str
    link: str
    note: str = ''


@dataclasses.dataclass(frozen=True)
class Node:
    """A job: its legs, and the jobs it needs."""

    id: str
    name: str
    state: str
    needs: tuple[str, ...]
    legs: tuple[Leg, ...]
    is_matrix: bool


@dataclasses.dataclass(frozen=True)
class Place:
    """Where a node stands, and which of its legs are drawn."""

    node: Node
    x: int
    y: int
    width: int
    height: int
    legs: tuple[Leg, ...]
    more: int


@dataclasses.dataclass(frozen=True)
class Edge:
    """A line from a job to one that needs it."""

    path: str
    source: str
    target: str
    is_done: bool


@dataclasses.dataclass(frozen=True)
class Drawing:
    """A graph that is laid out. A long one keeps its size, and its frame scrolls; another shrinks into its frame."""

    width: int
    height: int
    is_long: bool
    places: tuple[Place, ...]
    edges: tuple[Edge, ...]


def levels(nodes: Sequence[Node]) -> dict[str, int]:
    """How many needs lie before each job, at most. Needs that are unknown or go round count for nothing."""
    by_id = {node.id: node for node in nodes}
    found: dict[str, int] = {}
    left = dict(by_id)
    while left:
        ready = [node for node in left.values()
                 if not any(need in left for need in node.needs if need in by_id and need != node.id)]
        for node in ready or list(left.values()):
            found[node.id] = 1 + max((found[need] for need in node.needs if need in found), default=-1)
        for node in ready or list(left.values()):
            del left[node.id]
    return found


def _columns(nodes: Sequence[Node]) -> list[list[Node]]:
    level = levels(nodes)
    columns: list[list[Node]] = [[] for _ in range(1 + max(level.values(), default=0))]
    for node in nodes:
        columns[level[node.id]].append(node)
    row: dict[str, float] = {}
    for column in columns:
        order = {node.id: place for place, node in enumerate(column)}
        column.sort(key=lambda node: (_middle(node, row, order[node.id]), order[node.id]))
        row.update((node.id, place) for place, node in enumerate(column))
    return columns


def _middle(node: Node, row: Mapping[str, float], own: int) -> float:
    rows = [row[need] for need in node.needs if need in row]
    return sum(rows) / len(rows) if rows else float(own)


def _height(node: Node, drawn: int, more: int) -> int:
    if not node.is_matrix:
        return HEAD + 4
    return HEAD + ROW * (drawn + (1 if more else 0)) + PAD


def drawing(nodes: Sequence[Node]) -> Drawing:
    """The graph from left to right: a column for each level."""
    places: dict[str, Place] = {}
    bottom = 0
    columns = _columns(nodes)
    wide, gap = WIDTHS.get(len(columns), (WIDTH, GAP))
    for across, column in enumerate(columns):
        x, y = MARGIN + across * (wide + gap), MARGIN
        for node in column:
            legs = chosen(node.legs, MOST_LEGS) if node.is_matrix else ()
            more = len(node.legs) - len(legs) if node.is_matrix else 0
            places[node.id] = Place(node, x, y, wide, _height(node, len(legs), more), legs, more)
            y += places[node.id].height + GAP_DOWN
        bottom = max(bottom, y - GAP_DOWN)
    edges = tuple(_edge(places[need], place, gap) for place in places.values()
                  for need in direct(place.node, nodes) if need in places)
    width = MARGIN * 2 + len(columns) * wide + (len(columns) - 1) * gap
    return Drawing(width, bottom + MARGIN, len(columns) > LONG, tuple(places.values()), edges)


def chosen(legs: Sequence[Leg], most: int) -> tuple[Leg, ...]:
    """So many legs, in their order: those that failed or run are taken first where not all have room."""
    if len(legs) <= most:
        return tuple(legs)
    weight = {'failure': 0, 'stopping': 1, 'running': 1, 'cancelled': 2}
    best = sorted(range(len(legs)), key=lambda at: (weight.get(legs[at].state, 3), at))[:most]
    return tuple(legs[at] for at in sorted(best))


def direct(node: Node, nodes: Sequence[Node]) -> tuple[str, ...]:
    """The needs of a job that no other of its needs has already."""
    by_id = {one.id: one for one in nodes}
    farther: set[str] = set()
    waiting = [need for one in node.needs if one in by_id for need in by_id[one].needs]
    while waiting:
        need = waiting.pop()
        if need not in farther and need in by_id:
            farther.add(need)
            waiting.extend(by_id[need].needs)
    return tuple(need for need in dict.fromkeys(node.needs) if need not in farther)


def _edge(source: Place, target: Place, gap: int) -> Edge:
    x1, y1 = source.x + source.width, source.y + HEAD // 2 + 2
    x2, y2 = target.x, target.y + HEAD // 2 + 2
    bend = x2 - gap // 2
    if y1 == y2:
        path = f'M{x1} {y1}H{x2}'
    else:
        turn = min(10, abs(y2 - y1) // 2)
        down = turn if y2 > y1 else -turn
        path = (f'M{x1} {y1}H{bend - turn}Q{bend} {y1} {bend} {y1 + down}'
                f'V{y2 - down}Q{bend} {y2} {bend + turn} {y2}H{x2}')
    return Edge(path, source.node.id, target.node.id, source.node.state == 'success')


def narrow(nodes: Sequence[Node]) -> Drawing:
    """The graph from top to bottom: a row for each job, and a lane for each job that others need."""
    order = [node for column in _columns(nodes) for node in column]
    needed = {need for node in nodes for need in direct(node, nodes)}
    lanes = {node.id: place for place, node in enumerate(node for node in order if node.id in needed)}
    left = MARGIN + LANE * min(len(lanes), 8) + 6
    places = {node.id: Place(node, left, MARGIN + place * STEP, 334 - left, STEP - 8, (),
                             len(node.legs) if node.is_matrix else 0)
              for place, node in enumerate(order)}
    edges = []
    for node in order:
        for need in direct(node, nodes):
            if need in places and need != node.id:
                edges.append(_lane(places[need], places[node.id], MARGIN + LANE * (lanes[need] % 8) + LANE // 2))
    return Drawing(340, MARGIN + len(order) * STEP, False, tuple(places.values()), tuple(edges))


def _lane(source: Place, target: Place, x: int) -> Edge:
    y1, y2 = source.y + source.height // 2, target.y + target.height // 2
    down = 6 if y2 > y1 else -6
    path = f'M{source.x} {y1}H{x + 6}Q{x} {y1} {x} {y1 + down}V{y2 - down}Q{x} {y2} {x + 6} {y2}H{target.x}'
    return Edge(path, source.node.id, target.node.id, source.node.state == 'success')
