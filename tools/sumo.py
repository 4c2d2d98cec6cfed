"""SUMO's files: networks, signal programs, and vehicles as SUMO's own routers expand them."""
import os, subprocess, tempfile
import xml.etree.ElementTree as ET
from common import Fault, listed, progress

os.environ.setdefault("SUMO_HOME", "/usr/share/sumo")
CARS = ("passenger", "private", "taxi", "bus", "delivery", "truck")
VALIDATION = ["--xml-validation", "never"]
TURNAROUND = "t"

def events(path):
    """The elements of an XML file as they end."""
    try:
        for _, element in ET.iterparse(path):
            yield element
    except ET.ParseError as e:
        raise Fault(f"{path}: not XML: {e}") from None

def configuration(path):
    """(network, routes, additional files) of a .sumocfg; files that are not there are left out."""
    names, found = {"n": "net-file", "net": "net-file", "r": "route-files", "a": "additional-files"}, {}
    for e in events(path):
        if e.get("value"):
            found[names.get(e.tag, e.tag)] = [os.path.join(os.path.dirname(path), x.strip()) for x in listed(e.get("value"))]
    if "net-file" not in found:
        raise Fault(f"{path}: no configuration that names a net-file")
    return found["net-file"][0], *([x for x in found.get(k, []) if os.path.exists(x)] for k in ("route-files", "additional-files"))

def read_network(path):
    import sumolib
    try:
        net = sumolib.net.readNet(path, withPrograms=False, withInternal=False)
    except (KeyError, AttributeError, ValueError, TypeError) as fault:
        raise Fault(f"{path}: not a SUMO network: {fault!r}") from None
    if not net.getEdges():
        raise Fault(f"{path}: not a SUMO network: it has no edges")
    return net

def signal_programs(files, which=None):
    """light -> (state, seconds) of its phases: of the program loaded last, of the one named, or of `all`."""
    found = {}
    for path, e in ((path, e) for path in files for e in events(path)):
        if e.tag == "tlLogic":
            programs = found.setdefault(e.get("id"), {})
            programs.pop(e.get("programID"), None)
            try:
                programs[e.get("programID")] = [(p.attrib["state"], float(p.get("duration") or 0)) for p in e.iter("phase")]
            except (KeyError, ValueError) as fault:
                raise Fault(f"{path}: a phase of light {e.get('id')} is wrong: {fault}") from None
    if which not in (None, "all") and not any(which in programs for programs in found.values()):
        raise Fault(f"no signal program {which!r}")
    return {light: sum(programs.values(), []) if which == "all" else programs.get(which, list(programs.values())[-1])
            for light, programs in found.items()}

def vehicles(net_file, routes, additional, turns=None, end=None):
    """(departure, edges) of each vehicle: routes, flows, trips and distributions, expanded."""
    types = [path for path in additional if any(e.tag == "vType" for e in events(path))]
    with tempfile.TemporaryDirectory() as folder:
        out = os.path.join(folder, "routes.xml")
        command = ["jtrrouter", "-t", turns, "--accept-all-destinations"] if turns else ["duarouter"]
        command += ["-n", net_file, "-r", ",".join(routes), "-o", out, "--seed", "42", "--begin", "0", "--no-step-log", "--no-warnings",
                    "--ignore-errors", *VALIDATION, *(["-a", ",".join(types)] if types else []), *(["--end", str(end)] if end else [])]
        try:
            process = subprocess.run(command, capture_output=True, text=True)
        except FileNotFoundError:
            raise Fault(f"{command[0]} is not installed (apt-get install sumo)", 2) from None
        if process.returncode:
            said = (process.stderr + process.stdout).strip().splitlines()
            raise Fault(f"{command[0]}: " + next((x for x in said if x.startswith("Error")), f"status {process.returncode}"))
        for e in progress("vehicles", events(out), lambda e: e.get("id")):
            if e.tag == "vehicle":
                for route in e.findall(".//route")[-1:]:
                    yield float(e.get("depart")), route.get("edges").split()
                e.clear()
