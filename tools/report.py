"""What a log says: a summary on the screen, and with -o one page without any outside reference, with pictures.

The log may be of any length, and of `run`, `runwith`, `runguard`, `control` or `controlguard`. Without one the verdict and the network
are shown alone. Status 13 where the program's audit finds that the log differs, else 0.
"""
import base64, contextlib, html, itertools, os
from common import Fault, aligned, options, progress, put
from explain import Facts
from runlog import Log

HOT, TOP = 0.9, 15                                                 # a v/c above this is shaded; so many movements on the screen

class Report(Facts):
    """A network with a log, or without one. Bounds are those that the program gives, never the log's own."""
    def __init__(self, a):
        super().__init__(a)
        if not a.log:
            return
        if a.cert:
            head = self.program.call("runwith", a.net, a.cert)
            if head.status:
                raise Fault(f"{a.cert}: the program says {head.line()}", 2 if head.status == 2 else 3)
            self.slack, self.bounds, _ = head.header()
        with open(0 if a.log == "-" else a.log, errors="replace") as file:
            first = file.readline()
            words = ("auditwith", a.net, a.cert) if a.cert else ("audit", a.net)
            audit = self.program.start(*words) if first.startswith("maxpressure 1") else None
            try:
                self.log = Log(self.fed(audit, itertools.chain([first] if first else [], file)), self.net)
            except Fault as fault:
                raise Fault(f"{a.log}: {fault}") from None
            finally:
                self.audit = self.answer(audit)
        if self.log.kind != "run":
            self.slack, self.bounds = "", self.guard.bounds if self.guard and "guarded" in self.log.kind else []
        if self.log.bounds != self.bounds:
            self.notes.append("the log's own bounds are not those that the program gives here")
    @staticmethod
    def fed(audit, lines):
        """The lines, which the program's audit reads on the way."""
        for line in progress("log", lines, lambda line: line[:12]):
            if audit:
                with contextlib.suppress(BrokenPipeError):         # where it has seen enough
                    audit.stdin.write(line)
            yield line
    @staticmethod
    def answer(audit):
        if not audit:
            return "not audited: the program audits the logs of `run` and `runwith`"
        line = "".join(audit.communicate()).splitlines()[0]
        return line + (" (give the certificate of a `runwith` with --cert)" if line.startswith("overflow") else "")
    def run_lines(self):
        log, worst = self.log, max(range(len(self.log.peak)), key=lambda k: self.log.peak[k])
        totals = ", ".join(f"{key} {value:,}" for key, value in (log.end or {}).items())
        out = [f"{log.periods:,} periods" + (f" of {self.seconds:g} s ({self.time(log.periods)})" if self.seconds else "")
               + (f": {totals}" if totals else "")]
        out += [] if log.end is not None else ["The log has no end line: the run was cut short."]
        moves = ", where vehicles move as in the model" if "control" in log.kind else ""
        bound = f"; no permitted arrivals, for however long, make it exceed {self.bounds[worst]:,}{moves}. Bounds are safe, not tight: " \
            "they hold for the worst of all permitted arrivals" if self.bounds else ""
        return out + [f"The greatest queue is {log.peak[worst]} ({self.net.moves[worst].name}){bound}."]
    def long_reds(self, most=5):
        """Movements that waited long without green while vehicles stood, the longest first."""
        log, net = self.log, self.net
        long = sorted((k for k in range(len(net.moves)) if log.longest_red[k] >= max(10, log.periods // 20)), key=lambda k: -log.longest_red[k])
        named = [f"{net.moves[k].name} {self.time(log.longest_red[k])} (greatest queue {log.peak[k]})" for k in long[:most]]
        named += [f"{len(long) - most} more"] if len(long) > most else []
        return [f"Stood long without green: {', '.join(named)}."] if named else []
    def junctions(self):
        rows, log = [["junction", "stage", "movements", "of the time", "changes"][:5 if self.log else 3]], self.log
        for j, junction in enumerate(self.net.junctions):
            for s, stage in enumerate(junction.stages):
                rows.append([junction.name if s == 0 else "", s + 1, ", ".join(self.net.moves[k].name for k in stage)])
                if log:
                    rate = log.changes[j] / log.periods
                    changes = f"{rate * 3600 / self.seconds:.0f} an hour" if self.seconds else f"{rate:.2f} a period"
                    rows[-1] += [f"{100 * log.stage_periods[j][s] / log.periods:.0f} %", changes if s == 0 else ""]
        return rows
    def links(self):
        rows, log = [["link", f"rate ({self.unit})", "burst", "vehicles", "burst used"][:5 if self.log else 3]], self.log
        for i, x in enumerate(self.net.links[l] for l in self.net.fed):
            rows.append([x.name, f"{x.rate * self.factor:,.0f}", x.burst])
            rows[-1] += [f"{log.arrived[i]:,}", -(-log.level_top[i] // self.net.per)] if log and "control" not in log.kind else []
        return rows

STYLE = """body{font:15px/1.5 system-ui,sans-serif;max-width:1000px;margin:1.5em auto;padding:0 1em;color:#222}
h1{font-size:1.5em;overflow-wrap:anywhere}h2{font-size:1.15em;margin-top:1.8em}.wide{overflow-x:auto}
table{border-collapse:collapse;font-size:13px}td,th{padding:3px 9px;border-bottom:1px solid #ddd;text-align:right}
td{white-space:nowrap}th{vertical-align:bottom}td:first-child,th:first-child{text-align:left}
.junctions :nth-child(3){text-align:left}.junctions td:nth-child(3){white-space:normal;min-width:13em}img{width:100%;min-width:680px}
.hot{background:#fbe3dd}pre{background:#f4f4f4;padding:.7em;white-space:pre-wrap}.ok{color:#1e7a34}.no{color:#b03020}
@media print{body{max-width:none;margin:0}img{min-width:0;width:auto;max-width:100%;max-height:14cm}h2{break-after:avoid}
tr,img{break-inside:avoid}.wide{overflow:visible}td,th{padding:2px 5px;font-size:11px}}"""

def html_table(rows, kind="plain", hot=lambda row: False):
    cells = lambda tag, row: "".join(f"<{tag}>{html.escape(str(x))}</{tag}>" for x in row)
    body = "".join(f"<tr{' class=hot' if hot(row) else ''}>{cells('td', row)}</tr>\n" for row in rows[1:])
    return f"<div class=wide><table class={kind}><thead><tr>{cells('th', rows[0])}</tr></thead>\n{body}</table></div>"

def page(f, pictures):
    name, text = html.escape(os.path.basename(f.path)), lambda words, kind="plain": f"<p class={kind}>{html.escape(words)}</p>"
    body = [f"<h1>{name}</h1>"] + ([text(x, "ok") for x in f.verdict_words] if f.carried else
                                   [f"<pre class=no>{html.escape(chr(10).join(f.verdict_words))}</pre>"])
    if f.log:
        kind = {"log ok": "ok", "log di": "no"}.get(f.audit[:6], "plain")
        body += [text(f"Audit: {f.audit}", kind), *(text(x, "no") for x in f.long_reds()), *map(text, f.run_lines())]
    body += map(text, f.notes)
    body += [f'<h2>{title}</h2><div class=wide><img alt="{title}" src="data:image/png;base64,{base64.b64encode(png).decode()}"></div>'
             for title, png in pictures]
    body += ["<h2>Movements</h2>", html_table(f.movements(), hot=lambda row: float(row[-1]) > HOT), text(f"{f.load_words} Shaded: v/c above {HOT}.")]
    body += ["<h2>Junctions</h2>", html_table(f.junctions(), "junctions"), "<h2>Links that are fed</h2>", html_table(f.links()),
             "<h2>What this leaves out</h2>", text(
                 "Queues are those of the model: they have room without end, drivers turn by fixed shares, a vehicle that passes is "
                 "in the next queue a period later, and lost time counts only as far as the flows allow for it. Demand, capacity, "
                 "green and v/c are rounded numbers for reading; slack, bounds and sums are the program's.")]
    return f'<!doctype html><html lang="en"><head><meta charset="utf-8"><meta name="viewport" content="width=device-width">' \
           f"<title>{name}</title><style>{STYLE}</style></head><body>" + "\n".join(body) + "</body></html>\n"

def arguments(parser):
    options(parser, "net")
    parser.add_argument("log", nargs="?", metavar="LOG", help="a log, or - for standard input; without it the network alone")
    parser.add_argument("-o", "--out", metavar="X.html", help="write the page")
    parser.add_argument("--png", metavar="P", help="write the pictures as P.network.png and so on")
    parser.add_argument("--cert", help="the certificate of a log of `runwith`, for its audit")
    options(parser, "map", "period", "guard", "program")

def run(a):
    if a.out or a.png:
        import drawing
    f = Report(a)
    rows = f.movements()
    more = [f"({len(rows) - TOP - 1} more)"] if len(rows) > TOP + 1 else []
    print("\n".join([*(f.long_reds() + f.run_lines() if f.log else []), *f.verdict_words, *f.notes, *aligned(rows[:TOP + 1]), *more, f.load_words]))
    if f.log:
        print("\n".join([*aligned([row[:2] + row[3:] for row in f.junctions()]), f"audit: {f.audit}"]))
    pictures = list(progress("picture", drawing.pictures(f), lambda picture: picture[0])) if a.out or a.png else []
    for title, png in pictures if a.png else ():
        with open(f"{a.png}.{title.split()[0].lower()}.png", "wb") as file:
            file.write(png)
    if a.out:
        put(a.out, page(f, pictures))
        print(f"{a.out}: {os.path.getsize(a.out) // 1024} KiB")
    return 13 if f.log and f.audit.startswith("log differs") else 0
