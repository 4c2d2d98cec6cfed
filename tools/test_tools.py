"""Tests of the tools. What needs a package or the built program is skipped, with the reason, where it is missing."""
import argparse, importlib.util, os, re, shutil, signal, subprocess, sys, tempfile, unittest
import demand, explain, importer, lines, network
from common import Fault, put, written
from network import Junction, Link, Movement, Net, busiest, least_burst
from program import Program
from runlog import Log

HERE = os.path.dirname(os.path.abspath(__file__))
RILSA = "/usr/share/sumo/tools/sumolib/scenario/scenarios/RealWorld/RiLSA_example1"
try:
    PROGRAM, WHY = Program(), ""
except Fault as fault:
    PROGRAM, WHY = None, str(fault)
program = unittest.skipUnless(PROGRAM, WHY)
sumo = unittest.skipUnless(importlib.util.find_spec("sumolib") and shutil.which("duarouter"), "sumo and sumo-tools are not installed")
plots = unittest.skipUnless(importlib.util.find_spec("matplotlib"), "python3-matplotlib is not installed")
LOG = """maxpressure 1
slack 3/4
bound 1 ao 24
bound 2 bo 24
p 1 a 2 1 s 1 q 2 1
p 2 a 0 0 s 1 q 0 1
p 3 a 0 0 s 2 q 0 0
end 3 in 3 out 3 queued 0
"""
CUT = LOG[:LOG.index(" a 0 0 s 1")]
def two(rate):
    """Two links at one junction, each with a stage that passes 2 vehicles a period; rates per 4 periods."""
    moves = [Movement("ao", "a", "out", 1, 2), Movement("bo", "b", "out", 1, 2)]
    return Net(1, 4, [Link("a", 2, rate), Link("b", 2, rate)], moves, [Junction("j", [[0], [1]])])

def mp(*words, text=""):
    p = subprocess.run([sys.executable, os.path.join(HERE, "mp"), *words], input=text, capture_output=True, text=True)
    return p.returncode, p.stdout, p.stderr

class Case(unittest.TestCase):
    def setUp(self):
        folder = tempfile.TemporaryDirectory()
        self.addCleanup(folder.cleanup)
        self.folder = folder.name
    def file(self, name, text):
        put(os.path.join(self.folder, name), text)
        return os.path.join(self.folder, name)
    def net(self, rate=1):
        return self.file("n.toml", two(rate).text())
    def refuses(self, words, status, *command):
        """One line, with these words in it, and the status."""
        with self.subTest(words):
            got, _, err = mp(*command)
            self.assertEqual((got, len(err.splitlines())), (status, 1), err)
            self.assertIn(words, err)

class Numbers(Case):
    def test_numbers(self):
        for counts, rate, per, burst in (([2, 0, 0, 1], 1, 4, 2), ([2] + [0] * 7 + [1], 1, 4, 2), ([0, 0], 1, 4, 0), ([3], 4, 4, 2),
                                         ([1, 1, 1], 1, 2, 2)):
            self.assertEqual(least_burst(counts, rate, per), burst, counts)
        self.assertEqual(busiest([1, 2, 3, 0], 2), 2.5)
        moves = [Movement("xx", "x", "x", 1, 2), Movement("xo", "x", "out", 1, 2)]   # half goes round again: 1 + 1/2 + 1/4 + .. = 2
        self.assertEqual([round(f, 9) for f in Net(2, 4, [Link("x", 1, 1)], moves, [Junction("j", [[0, 1]])]).flows()], [1, 1])
        self.assertEqual(explain.short_junctions(two(5), [1, 1]), [("j", {0: 1, 1: 1})])   # a load of 10 where 8 are served
        with written(two(1).text(["a head"], {"a": "a note"})) as path:
            self.assertEqual(Net.read(path).text(), two(1).text())
        text = Net(1, 4, two(1).links, [m._replace(start=7) for m in two(1).moves], two(1).junctions).text()      # of version 2
        with written(text) as path:
            self.assertEqual((Net.read(path).text(), PROGRAM and PROGRAM.call("show", path).status), (text, PROGRAM and 0))

class Logs(Case):
    def test_good(self):
        log = Log(LOG.splitlines(True), two(1))
        self.assertEqual((log.peak, log.bounds, log.changes, log.stage_periods, log.level_top, log.longest_red),
                         ([2, 1], [24, 24], [1], [[2, 1]], [7, 3], [0, 1]))
        control = Log("maxpressure control 1\nc 1 q 3 1 s 1\nc 2 q 2 4 s 1\nend 2\n".splitlines(True), two(1))
        self.assertEqual((control.peak, control.longest_red, control.end), ([3, 4], [0, 2], {}))
        long = Log(["maxpressure 1"] + [f"p {t} a 0 0 s 1 q {t % 97} 1" for t in range(1, 5001)], two(1), columns=8)
        self.assertEqual((long.periods, long.peak, len(long.high) <= 8, long.low[-1]), (5000, [96, 1], True, [0, 1]))
    def test_bad(self):
        for text, words in (("x\n", "line 1: not a log"), (LOG.replace("q 0 1", "q 0"), "line 6: 1 queues"), (CUT, "line 6: cut short"),
                            (LOG.replace("p 2 a", "z 2 a"), "line 6"), (LOG.replace("p 2", "p 3"), "line 6: period 3"),
                            (LOG.replace("ao", "xo"), "another network"), (LOG.replace("s 2", "s 3"), "no stage 3"),
                            ("maxpressure 1\np 1 a 1 s 1 q 1 1\n", "1 arrivals, where the network has 2"), (LOG + "p 4", "behind the end"),
                            ("maxpressure 1\n", "no period")):
            with self.subTest(words), self.assertRaisesRegex(Fault, words):
                Log(text.splitlines(True), two(1))

class Demand(Case):
    def test_bad_counts(self):
        for text, words in (
                ("time,a,x\n0,1,1\n", "row 2: the network has no link 'x' (it has a, b)"), ("time,a,b\n0,1,-1\n", "row 2: '-1' is no count"),
                ("time,a,b\n0,1\n", "row 2: 2 fields"), ("time,a,b\n0,1,\n", "row 2: '' is no count of link b"), ("time,a\n", "no counts"),
                ("time,a\nnoon,1\n", "row 2: 'noon' is no time"), ("a,b\n1,1\n", "the header is"), ("", "the header is"),
                ("link,time,count\na,0,1\na,00:00,2\n", "row 3: link a has two counts"), ("time,a\n0,1\n0,2\n", "row 3: link a has two"),
                ("link,time,count\na,0,1\nb,0,1\na,900,1\n", "link b has no count for 900 s"), ("time,a\n0,1\n5,1\n", "finer than a period"),
                ("time,a\n0,1\n900,1\n2700,1\n", "none between 900 s and 2700 s: a gap")):
            with self.subTest(words), written(text) as path, self.assertRaisesRegex(Fault, re.escape(path) + ".*" + re.escape(words)):
                demand.Counts(path, demand.read_csv(path, two(1)), 30)
        gone, table = ["--period", "30"], self.file("d.csv", "detector,link\nd,a\n")
        self.refuses("row 2: '-1' is no count", 3, "demand", self.net(), self.file("c.csv", "time,a,b\n0,1,-1\n"), *gone)
        self.refuses("line 2: not 2 counts", 3, "demand", self.net(), self.file("c.stream", "1,1\n1\n"), *gone)
        self.refuses("--detectors is needed", 3, "demand", self.net(), self.file("c.xml", "<a"), *gone)
        self.refuses("c.xml: not the output of E1", 3, "demand", self.net(), self.file("c.xml", "<a"), *gone, "--detectors", table)
        self.refuses("--period is needed", 3, "demand", self.net(), "c.csv")
        self.refuses("gone.csv: No such file", 2, "demand", self.net(), "gone.csv", *gone)
    def test_detectors_and_draws(self):
        xml = self.file("e1.xml", '<d><interval begin="0" id="x" nVehContrib="3"/><interval begin="0" id="y" nVehContrib="4.00"/></d>')
        self.assertEqual(demand.read_detectors(xml, self.file("d.csv", "detector,link\nx,a\ny,a\n"), two(1)), {"a": {0.0: 7}})
        counts = demand.Counts("c.csv", {"a": {0: 40, 900: 0, 1800: 8}}, 30)
        for c in counts.draws("a", 5):
            self.assertEqual((len(c), sum(c[:30]), sum(c[30:60]), sum(c[60:])), (90, 40, 0, 8))
        self.assertEqual(list(counts.draws("a", 5)), list(counts.draws("a", 5)))
        self.assertEqual(list(demand.Counts("c.stream", {"a": {0: 4, 30: 7}}, 30).draws("a", 5)), [[4, 7]])
    @program
    def test_demand(self):
        counts = self.file("c.csv", "time,a,b\n" + "".join(f"{900 * i},{5 + 5 * i},15\n" for i in range(4)))
        out = os.path.join(self.folder, "o")
        status, said, err = mp("demand", self.net(), counts, "--period", "30", "-o", out)
        self.assertEqual((status, said.count("taken")), (0, 1), err)
        with open(out + ".stream") as stream:
            answer = PROGRAM.call("run", out + ".toml", text=stream.read())
        self.assertEqual((answer.status, answer.out.splitlines()[-1].split()[:4]), (0, ["end", "120", "in", "110"]))
        self.assertEqual(mp("demand", self.net(), counts, "--period", "30", "--curve", "a")[1].count("%"), 9)
    def test_missing_package(self):
        words = [sys.executable, "-S", os.path.join(HERE, "mp"), "report", self.net(), "-o", "x"]          # -S: without packages
        p = subprocess.run(words, capture_output=True, text=True)
        self.assertEqual((p.returncode, p.stderr), (2, "report: matplotlib is not installed (apt-get install python3-matplotlib)\n"))

class Lines(Case):
    """Each line that the program prints, for the very file."""
    def test_network_rules(self):
        good = two(1).text()
        for line, old, new, words in (
                ("N0 top", "", "", "where 1048576 fit"), ("N1 top", good, "x = = 1", "not TOML"), ("N13 top", "", "", "no link has a burst"),
                ("N2 link 1", "burst", "bursts", "link a has the key 'bursts'"), ("N3 link 1", 'name = "a"', "", "link 1 has no name"),
                ("N3 link 1", "burst = 2", "burst = 2.5", "burst is 2.5, where int"), ("N4 top", "version = 1", "version = 9", "version is 9"),
                ("N5 link 1", "burst = 2", "burst = 10001", "burst is 10001, where 0 to 10000"), ("N6 link 1", '"a"', '"a b"', "'a b'"),
                ("N5 movement 1", "share = 1", "share = 2", "share is 2, where 1 to 1"), ("N6 link 1", '"a"', '"out"', "is named `out`"),
                ("N7 link 2", 'name = "b"', 'name = "a"', "as link 1 has"), ("N7 junction 1", '["ao"]', '["ao", "ao"]', "lists ao twice"),
                ("N8 movement 1", 'from = "a"', 'from = "c"', "take a, b"), ("N12 link 3", "[[mo", '[[link]]\nname = "c"\n[[mo', "c has no movement"),
                ("N9 link 1", "shares = 1", "shares = 3", "link a sum to 1, not 3: movements ao 1"), ("N3 top", "shares = 1", "", "no shares"),
                ("N10 junction 1", '["ao"]', '["a0"]', "names the movement 'a0', which is not there: take ao, bo"),
                ("N11 movement 1", '["ao"]', "[]", "movement ao, out of link a, stands in no stage"),
                ("N14 link 1", 'to = "out"', 'to = "a"', "from link a no way leads out")):
            with self.subTest(line), written(good.replace(old, new, 1)) as path:
                self.assertIn(words, lines.meaning("network " + line, path))
                if PROGRAM and old:                                # the program prints that line for that file
                    self.assertEqual(PROGRAM.call("show", path).line(), "network " + line)
    def test_other_lines(self):
        for line, words in (
                ("line 5 above period 3 link 2", "more come to link b than its burst of 2 and its rate of 1 per 4"), ("pivots 1", "junction j"),
                ("certificate fails serve 2", "movement bo"), ("certificate fails part 1 2", "junction j, stage 2"), ("words", "no such command"),
                ("certificate fails d", "rule `d`"), ("overflow flow", "`flow` (as a whole)"), ("overflow game 1", "junction j"),
                ("overflow room", "2^62"), ("store x.toml", "x.toml couldn't"), ("vector text line 2", "line 2 of the vector's"),
                ("line 3 grammar", "2 counts here"), ("log differs line 6", "line 6 isn't what"), ("guard full 1", "greens of junction j"),
                ("network overloaded", "`mp explain NET`"), ("uneven link 2", "link b has no burst and a rate of 1"),
                ("plan full junction 1", "greens of junction j"), ("frames per", "4 periods"), ("sweeps bound", "smaller denominator"),
                ("line 2 event stale junction 1 link 2", "no report of link b"), ("line 2 event notadjacent junction 1 link 2", "to hear of link b")):
            with self.subTest(line), written(two(1).text()) as path:
                self.assertIn(words, lines.meaning(line, path))
        with open(os.path.join(HERE, "../docs/formats.md")) as file, written(two(1).text()) as path:   # each that it lists
            for line in re.findall(r"`([^`]+)`", "".join(row.split("|")[3] for row in file if re.match(r"\| [\d, ]+ \|", row))):
                if not line.startswith("network N"):
                    lines.meaning(re.sub(r"\d+", "1", line), path)
        for line in ("nonsense", "network N9 link 1", "network N9 link 7", "pivots 4", "network N15 top"):
            with self.subTest(line), written(two(1).text()) as path, self.assertRaises(Fault):
                lines.meaning(line, path)

@program
class WithProgram(Case):
    def test_verdicts(self):
        for rate, status, words in ((5, 4, "ao: 450 of 720 vehicles an hour of green, 62.5 % of the time"), (1, 0, "all at once (slack 3/4 "),
                                    (4, 4, "critical: the demand is carried with nothing")):
            got, out, err = mp("explain", self.net(rate), "--period", "10")
            self.assertEqual((got, words in out), (status, True), out + err)
        self.assertIn("overloaded: no mix of stages carries more than 80.0 % of this demand (confirmed by refute: load 100 against 80)",
                      mp("explain", self.net(5))[1])
        self.assertIn("reserve: certified up to 300 %", mp("explain", self.net(), "--reserve")[1])
    def test_bad_files(self):
        bad = self.file("b.toml", two(1).text().replace("shares = 1", "shares = 3"))
        self.refuses("network N9 link 1: shares out of link a sum to 1, not 3", 3, "explain", bad)
        self.refuses("not TOML", 3, "explain", self.file("b.toml", "x = = 1"))
        self.refuses("gone.toml: No such file", 2, "explain", "gone.toml")
        self.refuses("no program there", 2, "explain", self.net(), "--program", "gone")
        self.refuses("m.json: the map of another", 3, "explain", self.net(), "--map", self.file("m.json", '{"movements": []}'))
        for text in ("{", '{"movements": [{"name": "ao"}, {"name": "bo"}]}'):
            self.refuses("m.json: not a map", 3, "explain", self.net(), "--map", self.file("m.json", text))
        self.refuses("n.log: line 6: cut short", 3, "report", self.net(), self.file("n.log", CUT))
        self.refuses("another network", 3, "report", self.net(), self.file("n.log", LOG.replace("ao", "xo")))
        self.refuses("gone.log: No such file", 2, "report", self.net(), "gone.log")
    def test_silent_ends(self):
        pipe, log = subprocess.PIPE, "maxpressure 1\n" + "".join(f"p {t} a 0 0 s 1 q 0 0\n" for t in range(1, 9999))
        for ended, status in ((lambda p: p.stdout.close(), 141), (lambda p: p.send_signal(signal.SIGINT), 130)):
            words = [sys.executable, os.path.join(HERE, "mp"), "report", self.net(), "-"]
            with subprocess.Popen(words, stdin=pipe, stdout=pipe, stderr=pipe) as p:
                p.stdin.write(log.encode())                        # more than a pipe holds: so it is read when this ends
                p.stdin.flush()
                ended(p)
                p.stdin.close()
                self.assertEqual((p.stderr.read(), p.wait()), (b"", status))
    @plots
    def test_page(self):
        page = os.path.join(self.folder, "n.html")
        status, out, err = mp("report", self.net(), self.file("n.log", LOG), "-o", page)
        self.assertEqual((status, "audit: log ok 3" in out), (0, True), err)
        with open(page) as file:
            text = file.read()
        for words in ("log ok 3", "slack 3/4", "safe, not tight", "data:image/png;base64,"):
            self.assertIn(words, text)
        self.assertIsNone(re.search(r"https?:|src=\"(?!data:)|@import|<script|<link", text))
        self.assertEqual(mp("report", self.net(), self.file("f.log", LOG.replace("s 2 q 0 0", "s 1 q 0 0")))[0], 13)
        status, out, _ = mp("report", self.net(), self.file("f.log", LOG.replace("ao 24", "ao 25")))   # forged: the program's bound is shown
        self.assertEqual((status, "exceed 24" in out, "own bounds are not" in out, "audit: log differs line 3" in out), (13, True, True, True))
        self.assertEqual(mp("report", self.net(), "-", text=LOG)[0], 0)
        status, out, err = mp("report", self.net(5), "-o", page)
        self.assertEqual((status, out.startswith("overloaded")), (0, True), err)
    @sumo
    @unittest.skipUnless(os.path.isdir(RILSA), "sumo-tools has no RiLSA_example1")
    def test_guideline_junction(self):
        out = os.path.join(self.folder, "r")
        said = mp("import", RILSA + "/rilsa1.net.xml", "-r", RILSA + "/genroutes.rou.xml", "-o", out)[1]
        self.assertIn("4 links (4 fed), 8 movements, 1 junctions, 4 stages; 120 periods of 30 s", said)
        with open(out + ".stream") as stream:
            log = PROGRAM.call("run", out + ".toml", text=stream.read()).out.splitlines()
        self.assertEqual((log[1], log[-1]), ("slack 2299/6000", "end 120 in 2170 out 2141 queued 29"))
        self.assertIn("no queue exceeds 69, and nobody stands longer than 9.0 min", mp("guard", out + ".toml")[1])
        self.assertRegex(mp("explain", out + ".toml")[1], r"guard's wait.*\nwm.rs +3,129 +69 +240 s")
        self.assertIn("no guard waits 60 s or less", mp("guard", out + ".toml", "--most-wait", "60")[2])
        words = ["loop", out + ".toml", "--end", "120", "--drain", "0", "--modes", "program"]
        status, said, _ = mp(*words[:-1], "program,guard,run", "-a", RILSA + "/vtypes.add.xml")
        for row in (r"program +1 .* over a pipe", r"guard +1 .* 0 of 8 queues exceeded", r"run +1 .* audit: log ok 4"):
            self.assertRegex(said, row)
        self.assertEqual((status, mp(*words)[0]), (0, 3))                            # SUMO doesn't know the type of its vehicles
        bologna = RILSA.replace("RiLSA_example1", "acosta/acosta")
        mp("import", bologna + "_buslanes.net.xml", "-r", bologna + ".rou.xml", "-a", bologna + "_vtypes.add.xml", "-o", out)
        words = "(?s)more than 72.5 %.*junction 219 needs 137.9 %.*" if importlib.util.find_spec("scipy") else ""
        self.assertRegex(mp("explain", out + ".toml")[1], words + "certify says overflow game 3")

@sumo
class Import(Case):
    def made(self, name, *words):
        """(network, notes, import)"""
        parser, data = argparse.ArgumentParser(), lambda w: os.path.join(HERE, "data", w) if w.endswith(".xml") else w
        importer.arguments(parser)
        made, _ = importer.build(parser.parse_args([data(name + ".net.xml"), *map(data, words)]))
        return made.net, "\n".join(made.roads.notes), made
    def test_lane_groups_flows_and_greens(self):
        net, notes, made = self.made("crossing", "-r", "crossing.rou.xml")
        self.assertEqual([(m.name, m.to, m.share, m.flow) for m in net.moves], [     # 12.5 a lane and period; n_0 in parts 9.375 and 3.125
            ("w.rs", "out", 90, 12), ("w.l", "out", 10, 12), ("n.s", "out", 60, 9), ("n.l", "out", 20, 3), ("n.r", "out", 20, 3)])
        self.assertEqual(net.junctions, [Junction("L", [[0, 1, 4], [2, 3, 4]])])     # n.r has no signal; `rrG` lies in `GGG`
        self.assertIn("n to e: 3.75 vehicles a period rounded down to 3, 20 % less", notes)
        self.assertIn("n lane 0: its turns are not always green together", notes)
        columns = [[int(row.split(",")[i]) for row in made.stream] for i in (0, 1)]
        self.assertEqual([(x.rate, x.burst) for x in net.links], [(400, least_burst(c, 400, 120)) for c in columns])
        self.assertEqual([sum(c) for c in columns], [100, 100])
        self.assertIn("lanes * 1800 vehicles an hour", made.text("x"))
    def test_inner_edges_merges_and_rare_ways(self):
        net, notes, _ = self.made("corridor", "-r", "corridor.rou.xml")              # b, r and d lie inside; A is one junction
        self.assertEqual([(m.name, m.origin, m.to) for m in net.moves], [("a.s", "a", "i"), ("i.s", "i", "c"), ("c.s", "c", "out")])
        self.assertEqual([(x.name, x.rate) for x in net.links], [("a", 848), ("i", 0), ("c", 120)])
        self.assertEqual([j.name for j in net.junctions], ["A", "B"])
        self.assertIn("k to e: never green in the program of B; 15 vehicles left out", notes)
        self.assertIn("i to b: 2 of 212 vehicles that go on elsewhere count with the larger stream", notes)
    def test_programs_and_parts(self):
        add = ["-r", "corridor.rou.xml", "-a", "corridor.add.xml"]
        both, last = (self.made("corridor", *add, *more)[0] for more in (["--tls-program", "all"], []))
        self.assertEqual([[len(j.stages) for j in net.junctions] for net in (both, last)], [[1, 2], [1, 1]])
        self.assertEqual([m.name for m in last.moves], ["a.s", "i.s", "k.l"])        # the program loaded last has green for k alone
        self.assertEqual([m.name for m in self.made("corridor", *add[:2], "--junctions", "B")[0].moves], ["c.s"])
        net, notes, _ = self.made("corridor")
        self.assertEqual(([m.share for m in net.moves], [x.rate for x in net.links]), ([100, 50, 50, 100], [200, 0, 200]))
        self.assertIn("no vehicles given: shares by lanes", notes)
        self.addCleanup(setattr, network, "LINKS", network.LINKS)
        network.LINKS = 2
        with self.assertRaisesRegex(Fault, "the network has 3 links, where 2 fit: take a part with --junctions"):
            self.made("corridor", "-r", "corridor.rou.xml")
    def test_bad_files(self):
        net, routes = (os.path.join(HERE, "data", "crossing." + x) for x in ("net.xml", "rou.xml"))
        bad = self.file("bad.xml", "<net")
        for words, status, *command in (
                ("bad.xml: not XML", 3, bad), ("gone.xml: not there", 2, "gone.xml"), ("gone.xml: not there", 2, net, "-r", "gone.xml"),
                ("not a SUMO network", 3, routes), ("--period 7 must divide 3600", 3, net, "--period", "7"), ("--lost 30", 3, net, "--lost", "30"),
                ("no light with a program for cars among X", 3, net, "--junctions", "X"), ("duarouter: Error", 3, net, "-r", bad),
                ("no configuration that names", 3, self.file("x.sumocfg", "<c/>")), ("no signal program 'X'", 3, net, "--tls-program", "X")):
            self.refuses(words, status, "import", *command, "-o", os.path.join(self.folder, "n"))

if __name__ == "__main__":
    result = unittest.main(verbosity=2, buffer=True, exit=False).result
    failed = len({getattr(test, "test_case", test) for test, _ in result.failures + result.errors})
    print(f"{result.testsRun - len(result.skipped) - failed} passed, {failed} failed")
    sys.exit(failed > 0)
