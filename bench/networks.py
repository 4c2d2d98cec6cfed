#!/usr/bin/env python3
"""Networks and streams to measure on.

  bench/networks.py KIND SIZE            prints a network file
  bench/networks.py KIND SIZE PERIODS    prints a stream of permitted arrivals for it
  bench/networks.py KIND SIZE PERIODS events    the same, with lines by which each junction hears and decides in each period

KIND and SIZE:
  links N       N links that meet at one junction, each with a stage of its own
  corridor N    N junctions in a row: a main road both ways, cross roads, four stages
  grid N        N by N junctions of one-way roads, all east or south, two stages
  blocks N      the same with roads that lead there and back in turn, so that traffic circles round the blocks
  city N        N by N junctions of roads both ways, fed round the edge, four stages
  ring N        N links in a ring, of which one vehicle in a thousand leaves at each, with a stage of its own
  largest 0     the limits of a network file: 128 links, 512 movements, 64 junctions of 16 stages of 8 movements

Streams are drawn with a fixed seed: stretches at the rate and stretches of bursts, cut to what the buckets accept.
"""
import random
import sys
from typing import NamedTuple


class Link(NamedTuple):
    name: str
    burst: int = 0
    rate: int = 0


class Movement(NamedTuple):
    name: str
    origin: str
    target: str
    share: int
    flow: int


class Network(NamedTuple):
    shares: int
    per: int
    links: list
    movements: list
    junctions: list  # of lists of stages, which are lists of names


def links(n):
    names = [f"a{i}" for i in range(1, n + 1)]
    return Network(1, 4, [Link(it, 2, 1) for it in names], [Movement(it + "o", it, "out", 1, 2) for it in names], [[[it + "o"] for it in names]])


def corridor(n):
    inside = lambda road, i: f"{road}{i}" if 1 <= i <= n else "out"
    roads = [Link(f"e{i}", 30, 600) if i == 1 else Link(f"e{i}") for i in range(1, n + 1)]
    roads += [Link(f"w{i}", 30, 500) if i == n else Link(f"w{i}") for i in range(n, 0, -1)]
    roads += [Link(f"{road}{i}", 10, 200) for road in "ns" for i in range(1, n + 1)]
    movements = []
    for name, *_ in roads:
        road, i = name[0], int(name[1:])
        east, west = inside("e", i + 1), inside("w", i - 1)
        if road in "ew":
            turns = ("t", east if road == "e" else west, 70, 90), ("l", "out", 10, 40), ("r", "out", 20, 40)
        else:
            left, right = (east, west) if road == "n" else (west, east)
            turns = ("t", "out", 40, 45), ("l", left, 30, 40), ("r", right, 30, 40)
        movements += [Movement(f"{name}.{turn}", name, *rest) for turn, *rest in turns]
    stages = lambda i: [[f"{road}{i}.{turn}" for road in pair for turn in turns] for pair in ("ew", "ns") for turns in ("tr", "l")]
    return Network(100, 40, roads, movements, [stages(i) for i in range(1, n + 1)])


def one_way(n, way):
    """N by N junctions of one-way roads, each way(i) on from the one before: 1, or -1 where it goes back."""
    inside = lambda road, row, column: f"{road}{row}.{column}" if 0 <= row < n and 0 <= column < n else "out"
    first = lambda i: 0 if way(i) == 1 else n - 1
    roads, movements, junctions = [], [], []
    for row in range(n):
        for column in range(n):
            across, down = f"h{row}.{column}", f"v{row}.{column}"
            roads += [Link(across, 10, 200) if column == first(row) else Link(across), Link(down, 10, 160) if row == first(column) else Link(down)]
            along, below = inside("h", row, column + way(row)), inside("v", row + way(column), column)
            movements += [Movement(across + "t", across, along, 8, 30), Movement(across + "u", across, below, 2, 20)]
            movements += [Movement(down + "t", down, below, 8, 30), Movement(down + "u", down, along, 2, 20)]
            junctions.append([[across + "t", across + "u"], [down + "t", down + "u"]])
    return Network(10, 40, roads, movements, junctions)


def grid(n):
    return one_way(n, lambda i: 1)


def blocks(n):
    return one_way(n, lambda i: 1 - i % 2 * 2)


def city(n):
    # An eastbound road leads one column on, its left turn goes north, and so round.
    heading = {"e": (0, 1), "n": (-1, 0), "w": (0, -1), "s": (1, 0)}
    inside = lambda row, column: 0 <= row < n and 0 <= column < n
    roads, movements, junctions = [], [], []
    for row in range(n):
        for column in range(n):
            for i, road in enumerate("enws"):
                name, (down, right) = f"{road}{row}.{column}", heading[road]
                roads.append(Link(name) if inside(row - down, column - right) else Link(name, 10, 250))
                for turn, to, share, flow in ("t", road, 70, 90), ("l", "enws"[i - 3], 10, 40), ("r", "enws"[i - 1], 20, 40):
                    at = row + heading[to][0], column + heading[to][1]
                    movements.append(Movement(name + turn, name, f"{to}{at[0]}.{at[1]}" if inside(*at) else "out", share, flow))
            junctions.append([[f"{road}{row}.{column}{turn}" for road in pair for turn in turns] for pair in ("ew", "ns") for turns in ("tr", "l")])
    return Network(100, 40, roads, movements, junctions)


def ring(n):
    names = [f"r{i}" for i in range(1, n + 1)]
    movements = [[Movement(it + "n", it, then, 999, 1000), Movement(it + "x", it, "out", 1, 1000)] for it, then in zip(names, names[1:] + names[:1])]
    roads = [Link(names[0], 1, 1), *map(Link, names[1:])]
    return Network(1000, 1, roads, sum(movements, []), [[[it.name for it in own]] for own in movements])


def largest(_):
    # Four layers of 32 links. A link leads to three of the next layer and out, and two links meet at a junction.
    roads = [Link(f"l{i}", 30, 1800 + 60 * (i % 7)) for i in range(128)]
    movements, junctions = [], []
    for i in range(128):
        layer, place = divmod(i, 32)
        onward = lambda k: f"l{32 * (layer + 1) + (5 * place + k) % 32}" if layer < 3 else "out"
        targets = zip("abcd", [onward(1), onward(8), onward(19), "out"], (400, 300, 200, 100))
        movements += [Movement(f"l{i}{turn}", f"l{i}", to, share, 30 + (i + share // 100) % 20) for turn, to, share in targets]
    for j in range(64):
        own = [it.name for it in movements[8 * j : 8 * j + 8]]
        junctions.append([own[k:] + own[:k] for k in range(8)] + [(own[k:] + own[:k])[::-1] for k in range(8)])
    return Network(1000, 3600, roads, movements, junctions)


def text(network):
    yield f"version = 1\nshares = {network.shares}\nper = {network.per}\n"
    for it in network.links:
        yield f'[[link]]\nname = "{it.name}"\n' + (f"burst = {it.burst}\n" if it.burst else "") + (f"rate = {it.rate}\n" if it.rate else "")
    for it in network.movements:
        yield f'[[movement]]\nname = "{it.name}"\nfrom = "{it.origin}"\nto = "{it.target}"\nshare = {it.share}\nflow = {it.flow}\n'
    for i, stages in enumerate(network.junctions, 1):
        named = ", ".join("[" + ", ".join(f'"{it}"' for it in stage) + "]" for stage in stages)
        yield f'[[junction]]\nname = "j{i}"\nstages = [{named}]\n'


def stream(network, periods):
    """Lines of arrivals. What a link's bucket holds is kept in vehicles times the rate length."""
    draw, fed = random.Random(1).random, [it for it in network.links if it.burst or it.rate]
    held = [0] * len(fed)
    for period in range(periods):
        more = 4 if period // 50 % 3 == 0 else 1
        counts = []
        for i, link in enumerate(fed):
            wish = int(draw() * (2 * link.rate // network.per + 1 + more))
            count = min(wish, (network.per * link.burst + link.rate - held[i]) // network.per)
            held[i] = max(0, held[i] + network.per * count - link.rate)
            counts.append(count)
        yield ",".join(map(str, counts)) + "\n"


def with_events(network, lines):
    """Before each line of arrivals each junction hears all links that it feeds, and then decides, in random order."""
    draw, number = random.Random(2), {link.name: i for i, link in enumerate(network.links, 1)}
    target = {it.name: number.get(it.target) for it in network.movements}
    fed = [sorted({target[it] for stage in stages for it in stage} - {None}) for stages in network.junctions]
    for line in lines:
        own = [[f"hear {j} {l}\n" for l in draw.sample(links, len(links))] + [f"decide {j}\n"] for j, links in enumerate(fed, 1)]
        order = [j for j, events in enumerate(own) for _ in events]
        draw.shuffle(order)
        yield from (own[j].pop(0) for j in order)
        yield line


KINDS = {it.__name__: it for it in (links, corridor, grid, blocks, city, ring, largest)}

if __name__ == "__main__":
    if len(sys.argv) not in (3, 4, 5) or sys.argv[1] not in KINDS or sys.argv[4:] not in ([], ["events"]):
        sys.exit(__doc__)
    chosen = KINDS[sys.argv[1]](int(sys.argv[2]))
    lines = stream(chosen, int(sys.argv[3])) if len(sys.argv) > 3 else text(chosen)
    sys.stdout.writelines(with_events(chosen, lines) if len(sys.argv) == 5 else lines)
