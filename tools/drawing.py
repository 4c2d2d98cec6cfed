"""The pictures of a report (python3-matplotlib)."""
import io, math
import matplotlib, numpy

matplotlib.use("Agg")
matplotlib.rcParams.update({"font.size": 8, "xtick.labelsize": 7, "ytick.labelsize": 7})
from matplotlib import pyplot  # noqa: E402

BLUE, RED, GREEN = "#3b6ea5", "#c0392b", "#2e8b57"
STAGES = [pyplot.get_cmap("tab20").colors[i] for i in [*range(0, 20, 2), *range(1, 20, 2)]]
HALO = {"boxstyle": "round,pad=0.08", "fc": "white", "ec": "none", "alpha": 0.75}

def pictures(f):
    """(title, PNG) of each picture."""
    of_log = [("Queues over time", queues), ("Greatest queues and bounds", bounds), ("Stages over time", stages)] if f.log else []
    for title, draw in [("Network", network), *of_log]:
        file = io.BytesIO()
        draw(f).savefig(file, format="png", dpi=130, bbox_inches="tight")
        pyplot.close("all")
        yield title, file.getvalue()

def by_peak(log, most):
    return sorted(range(len(log.peak)), key=lambda k: -log.peak[k])[:most]

def name_rows(axis, names):
    axis.set_ylim(-0.6, len(names) - 0.4)
    axis.set_yticks(range(len(names)), names)
    axis.invert_yaxis()

def queues(f, most=6):
    """The movements with the greatest queues, a panel each; of a long log the least and greatest of each column."""
    log, order = f.log, by_peak(f.log, most)
    rows, minutes = -(-len(order) // 2), f.seconds / 60 if f.seconds else 1
    figure, axes = pyplot.subplots(rows, 2, figsize=(10, 0.9 + 1.4 * rows), sharex=True, sharey=True, squeeze=False, layout="constrained")
    x = [i * log.width * minutes for i in range(len(log.high))] + [log.periods * minutes]
    for axis, k in zip(axes.flat, order):
        low, high = ([*(c[k] for c in columns), columns[-1][k]] for columns in (log.low, log.high))
        axis.fill_between(x, high, step="post", color=BLUE, alpha=0.25, lw=0)
        axis.fill_between(x, low, high, step="post", color=BLUE, alpha=0.6, lw=0)
        axis.step(x, high, where="post", lw=0.8, color=BLUE)
        at = high.index(max(high))
        axis.plot((x[at] + x[at + 1]) / 2, high[at], "v", color=RED, ms=5)
        bound = f", bound {f.bounds[k]:,}" if f.bounds else ""
        axis.set_title(f"{f.net.moves[k].name}: greatest {log.peak[k]}{bound}", fontsize=8, loc="left")
        axis.grid(alpha=0.3)
        axis.locator_params(integer=True)
        axis.set(ylim=(0, max(log.peak) * 1.15 + 1), xlim=(0, x[-1]))
    for axis in list(axes.flat)[len(order):]:
        axis.axis("off")
    wide = f" (each point: the least and the greatest of {log.width} periods)" if log.width > 1 else ""
    figure.supxlabel(("minutes" if f.seconds else "periods") + wide, fontsize=8)
    figure.supylabel("vehicles queued", fontsize=8)
    return figure

def bounds(f, most=40):
    log, order, least = f.log, by_peak(f.log, most), 0.6           # a log scale has no 0
    figure, axis = pyplot.subplots(figsize=(10, 1 + 0.22 * len(order)), layout="constrained")
    y = range(len(order))
    axis.barh(y, [max(least, log.peak[k]) for k in order], color=BLUE, label="greatest queue in this log")
    axis.scatter([max(least, log.mean[k]) for k in order], y, color="white", edgecolor=BLUE, s=18, zorder=3, label="mean")
    if f.bounds:
        axis.scatter([f.bounds[k] for k in order], y, marker="|", s=120, color=RED, lw=2, label="bound")
    if f.guard:
        axis.scatter([f.guard.bounds[k] for k in order], y, marker="d", s=22, color=GREEN, label="bound under the guard")
    name_rows(axis, [f.net.moves[k].name for k in order])
    axis.set_xscale("log")
    axis.set_xlim(left=least)
    axis.xaxis.set_major_formatter("{x:,.0f}")
    axis.xaxis.set_minor_formatter("")
    axis.set_xlabel("vehicles (log scale)" + (f", {most} of {len(log.peak)} movements" if len(log.peak) > most else ""))
    axis.legend(loc="lower center", bbox_to_anchor=(0.5, 1), ncols=4, frameon=False)
    axis.grid(axis="x", alpha=0.3)
    return figure

def stages(f):
    """The stage of each junction, by number, from the first period on."""
    log, count, most = f.log, len(f.net.junctions), min(f.log.window, f.log.periods)
    figure, axis = pyplot.subplots(figsize=(10, 1.2 + 0.34 * count), layout="constrained")
    minutes, used = f.seconds / 60 if f.seconds else 1, set()
    for j, shown in enumerate(log.shown):
        for (first, s), (end, _) in zip(shown, [*shown[1:], (most + 1, None)]):
            used.add(s)
            left, width = (first - 1) * minutes, (end - first) * minutes
            axis.broken_barh([(left, width)], (j - 0.4, 0.8), facecolors=STAGES[s], edgecolor="white", lw=0.4)
            if width > most * minutes / 70:
                axis.text(left + width / 2, j, str(s + 1), ha="center", va="center", fontsize=6, color="white")
    name_rows(axis, [x.name for x in f.net.junctions])
    axis.set_xlim(0, most * minutes)
    axis.locator_params(axis="x", integer=True)
    axis.set_xlabel(("minutes" if f.seconds else "periods") + f": the first {most:,} of {log.periods:,} periods")
    patches = [pyplot.Rectangle((0, 0), 1, 1, color=STAGES[s], label=f"stage {s + 1}") for s in sorted(used)]
    axis.legend(handles=patches, ncols=8, fontsize=7, loc="lower center", bbox_to_anchor=(0.5, 1), frameon=False, handlelength=1)
    return figure

def springs(net):
    """(points of each link, place of each junction) where there are no shapes: after Fruchterman and Reingold (1991)."""
    at, feeds = {m.origin: net.junction_of[k].name for k, m in enumerate(net.moves)}, {}
    for m in net.moves:
        if m.to != "out" and at[m.to] != at[m.origin]:
            feeds.setdefault(m.to, at[m.origin])
    nodes = [j.name for j in net.junctions] + ["rim of " + x.name for x in net.links if x.name not in feeds]
    number = {n: i for i, n in enumerate(nodes)}
    ends = [(number[feeds.get(x.name, "rim of " + x.name)], number[at[x.name]]) for x in net.links]
    tied = numpy.zeros((len(nodes), len(nodes)))
    for u, v in ends:
        tied[u, v] = tied[v, u] = 1
    angle = numpy.arange(len(nodes)) * 2.4
    p = numpy.stack([numpy.cos(angle) * (1 + angle / 9), numpy.sin(angle) * (1 + angle / 9)], 1)
    for i in range(600):
        apart = p[:, None] - p[None]
        r = numpy.sqrt((apart ** 2).sum(2)) + 1e-3
        force = (apart / r[..., None] * (1 / r - tied * r * r)[..., None]).sum(1)
        p = p + force / (numpy.linalg.norm(force, axis=1, keepdims=True) + 1e-9) * (0.3 * (1 - i / 600) + 0.004)
    p = p - p.mean(0)
    p = p @ numpy.linalg.svd(p, full_matrices=False)[2].T * 200    # the longest way lies flat
    return {x.name: [tuple(p[u]), tuple(p[v])] for x, (u, v) in zip(net.links, ends)}, {j.name: tuple(p[number[j.name]]) for j in net.junctions}

def along(shape, part):
    """The point at this part of a line's length."""
    lengths = numpy.cumsum([0, *(math.dist(a, b) for a, b in zip(shape, shape[1:]))])
    return tuple(numpy.interp(part * lengths[-1], lengths, [p[i] for p in shape]) for i in (0, 1))

def free_way(at, others):
    """The way from a point into the widest gap between the ways to the others."""
    ways = sorted(math.atan2(y - at[1], x - at[0]) for x, y in others) or [0.0]
    gap, first = max((b - a, a) for a, b in zip(ways, [*ways[1:], ways[0] + 2 * math.pi]))
    return math.cos(first + gap / 2), math.sin(first + gap / 2)

def draw_link(axis, shape, words, color, span):
    """A link on the right of the way that it goes, with an arrow and words beside it."""
    (x0, y0), (x1, y1) = shape[0], shape[-1]
    d = math.dist(shape[0], shape[-1]) or 1
    right = (y1 - y0) / d, (x0 - x1) / d
    shape = [(x + right[0] * span * 0.007, y + right[1] * span * 0.007) for x, y in shape]
    axis.plot(*zip(*shape), color="#555", lw=4.4, solid_capstyle="butt", zorder=1)
    axis.plot(*zip(*shape), color=color, lw=3, solid_capstyle="butt", zorder=2)
    length = sum(math.dist(a, b) for a, b in zip(shape, shape[1:])) or 1
    axis.annotate("", xy=shape[-1], xytext=along(shape, max(0, 1 - 0.02 * span / length)), zorder=3,
                  arrowprops={"arrowstyle": "-|>", "color": "#222", "lw": 1})
    if length > 0.06 * span:
        turned = math.degrees(math.atan2(y1 - y0, x1 - x0))
        axis.annotate(words, along(shape, 0.45), xytext=(7 * right[0], 7 * right[1]), textcoords="offset points", fontsize=6, ha="center",
                      va="center", rotation=turned - 180 if turned > 90 else turned + 180 if turned <= -90 else turned, zorder=4, bbox=HALO)

def network(f):
    """Links in the colour of their load, by SUMO's shapes or by springs."""
    shapes, places = springs(f.net) if not f.map else (
        {x["name"]: x["shape"] for x in f.map["links"]}, {j["name"]: j["xy"] for j in f.map["junctions"]})
    values = {x.name: max(f.loads[k].ratio for k in out) for x, out in zip(f.net.links, f.net.out_of)}
    top = max(1.0, *values.values())
    words = "greatest v/c of a movement, in the certificate's green split" if f.carried else "part of the time that the neediest movement wants"
    colors = pyplot.get_cmap("RdYlGn_r")
    figure, axis = pyplot.subplots(figsize=(10, 6.5), layout="constrained")
    points = [p for shape in shapes.values() for p in shape]
    span = max(max(p[i] for p in points) - min(p[i] for p in points) for i in (0, 1)) or 1
    for name, shape in shapes.items():
        draw_link(axis, shape, f"{name} {values[name]:.2f}", colors(min(1.0, values[name] / top)), span)
    for name, at in places.items():
        color, needs = (RED, f" needs {f.short[name]} of its time") if name in f.short else ("#111", "")
        axis.plot(*at, "o", color=color, ms=7, zorder=5)
        x, y = free_way(at, [along(s, 0.5) for s in shapes.values() if min(math.dist(at, s[0]), math.dist(at, s[-1])) < 0.1 * span])
        axis.annotate(name + needs, at, xytext=(8 * x, 10 * y), textcoords="offset points", fontsize=7.5, weight="bold", color=color,
                      ha=("right", "center", "left")[round(x) + 1], va="center", zorder=6, bbox=HALO)
    axis.set_aspect("equal")
    axis.axis("off")
    bar = figure.colorbar(pyplot.cm.ScalarMappable(cmap=colors, norm=pyplot.Normalize(0, top)), ax=axis, shrink=0.5)
    bar.set_label(words)
    return figure
