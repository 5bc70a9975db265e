#!/usr/bin/env bash
# Prints reports and traces as rows of comma-separated fields and as pictures, and holds them to their JSON: python's csv module
# reads the rows, and a reader of DOT in python reads the pictures, which Graphviz draws, too, where it is installed. The items
# and the destinations have commas, quotes, backslashes and `&` in them. A refusal is printed as text, and two forms at once are
# a bad command line.
# Run by hand, and by the gate on the program that it built. RECALL names another program. It takes a second or two, and ends
# with status 0 where all is as it should be.
set -u
here=$(cd "$(dirname "$0")/.." && pwd) || exit 2
recall=${RECALL:-}
if [ -z "$recall" ]; then
    "$here/recall" --help >/dev/null || exit 2
    recall="$here/crates/recall_cli/out/recall_cli"
fi
command -v python3 >/dev/null || {
    echo "python3 isn't installed: no rows are read"
    exit 0
}
recall=$(realpath -e -- "$recall") || exit 2
work=$(mktemp -d) || exit 2
trap 'rm -rf "$work"' EXIT
cd "$work" || exit 2
RECALL=$recall HERE=$here python3 - <<'PYTHON'
import csv
import html
import io
import json
import os
import re
import shutil
import subprocess
import sys
import urllib.parse

RECALL = os.environ["RECALL"]
EXAMPLES = os.path.join(os.environ["HERE"], "examples", "dairy")
FRONT = ["recall", "site", "item", "gtin", "serial", "sscc"]
BACK = ["kind", "destination"]
EVIDENCE = ["event_id", "event_time", "carrier"]
compared = 0


def ask(*words, status=0):
    """What the program prints for these words, which ends so: its bytes and its words of error."""
    ran = subprocess.run([RECALL, *words], capture_output=True, stdin=subprocess.DEVNULL)
    if ran.returncode != status:
        sys.exit(f"{' '.join(words)}: status {ran.returncode}, wanted {status}\n{ran.stdout}{ran.stderr}")
    return ran.stdout, ran.stderr.decode()


def same(what, told, wanted):
    if told != wanted:
        sys.exit(f"{what}\n  told   {told}\n  wanted {wanted}")


def numbers(item):
    """The GTIN, the serial number and the SSCC of an item, by the words of its key."""
    words = item.split(" ")
    if lot(item):
        return [words[1].split("/")[4], "", ""]
    if words[0] == "sgtin":
        return [words[1], words[2], ""]
    return ["", "", words[1]] if words[0] == "sscc" else ["", "", ""]


def lot(item):
    """The lot number of a lot, by its link, and nothing of any other item."""
    found = re.fullmatch(r"uri https://id\.gs1\.org/01/[0-9]{14}/10/([^/?#]+)", item)
    return urllib.parse.unquote(found[1]) if found else ""


def beside(pair, back):
    """The step before a pair on its trail, or behind it where the trail leads back."""
    trail = pair["trail"] or []
    if len(trail) < 2:
        return None
    return trail[1] if back else trail[-2]


def event_of(pair, back):
    """The event in the row of a pair: the first one of the step beside it."""
    steps = pair.get("events")
    if not steps:
        return None
    step = steps[0] if back else steps[-1]
    return step["event"] if step["kind"] == "shipped" else step["input"]


def rows_of(told, events=False):
    """The rows that the JSON of a report or a trace asks for, the names of the columns first; with the events, where they are told."""
    back = told.get("trace") == "back"
    about = told.get("recall", "")
    step = "to" if back else "from"
    rows = [FRONT + [step + "_site", step + "_item"] + BACK + EVIDENCE * events + ["lot"]]

    def row(site, item, other, kind, destination="", event=None, carrier=""):
        near = [other["site"], other["item"]] if other else ["", ""]
        shown = [event["id"] or "", event["time"] or ""] if event else ["", ""]
        rows.append([about, site, item, *numbers(item), *near, kind, destination] + [*shown, carrier] * events + [lot(item)])

    for pair in told["pairs"]:
        row(pair["site"], pair["item"], beside(pair, back), "held" if about else "found", event=event_of(pair, back))
    for out in told.get("outside", []):
        carrier = out.get("carrier", out["item"])
        row(out["site"], out["item"], None, "outside", out["destination"], out.get("event"), "" if carrier == out["item"] else carrier)
    for origin in told.get("origins", []):
        row(origin["site"], origin["item"], None, "origin")
    return rows


def tokens(text):
    """The words of a picture: texts in quotes, as what they stand for behind a quote, and other words and marks."""
    place = 0
    for found in re.finditer(r'"(?:[^"\\]|\\.)*"|->|[{}\[\];=,]|\w+|\s+', text):
        if found.start() != place:
            sys.exit(f"no DOT at {place}: {text[place:place + 40]}")
        place = found.end()
        word = found.group()
        if word[0] == '"':
            yield '"' + html.unescape(re.sub(r"\\(.)", r"\1", word[1:-1]))
        elif not word.isspace():
            yield word
    if place != len(text):
        sys.exit(f"no DOT at {place}: {text[place:]}")


def picture(text):
    """The title, the nodes of each site with their labels, the marks and the edges of a picture."""
    words = list(tokens(text))
    title, clusters, marks, edges, at, depth, site = None, {}, [], [], 0, 0, None
    while at < len(words):
        word = words[at]
        if word in ("digraph", "subgraph"):
            depth += 1
            if word == "subgraph":
                site = words[at + 1].removeprefix('"cluster ')
                clusters[site] = []
            at += 3
        elif word == "}":
            depth -= 1
            site = None
            at += 1
        elif word in ("label", "rankdir"):
            if word == "label" and site is None:
                title = words[at + 2][1:]
            elif word == "label":
                same("the label of a site", words[at + 2][1:], site)
            at += 4
        elif words[at + 1] == "->":
            edges.append((word[1:], words[at + 2][1:]))
            at += 4
        else:
            end = words.index("]", at)
            if site is not None:
                clusters[site].append((word[1:], words[at + 4][1:]))
            elif word != "node":
                marks.append((word[1:], words[at + 2 : end]))
            at = end + 2
    same("the braces", depth, 0)
    return title, clusters, marks, edges


def pictured(told, sites):
    """What the JSON of a report or a trace asks for as a picture."""
    back = told.get("trace") == "back"
    title = f"trace {told['trace']}" if "trace" in told else f"recall {told['recall']} {'ended' if told['ended'] else 'open'}"

    def node(pair):
        return f"{pair['site']} {pair['item']}"

    clusters = {site: [(node(p), p["item"]) for p in told["pairs"] if p["site"] == site] for site in sites}
    marks = [(node(told["root"]), ["penwidth", "=", "3"])]
    edges = []
    for pair in told["pairs"]:
        other = beside(pair, back)
        if other:
            edges.append((node(pair), node(other)) if back else (node(other), node(pair)))
    for out in told.get("outside", []):
        place = "> " + out["destination"]
        marks.append((place, ["label", "=", '"' + out["destination"], ",", "style", "=", "dashed"]))
        edges.append((node(out), place))
    for origin in told.get("origins", []):
        marks.append((node(origin), ["peripheries", "=", "2"]))
    return title, clusters, marks, edges


def compare(sites, *words):
    """An answer in all forms says the same."""
    global compared
    compared += 1
    told = json.loads(ask(*words, "--json")[0])
    for more in ([], ["--events"]):
        wanted = rows_of(json.loads(ask(*words, *more, "--json")[0]), bool(more))
        rows = ask(*words, *more, "--csv")[0]
        same(f"{words}: CR LF", rows.count(b"\r\n"), len(wanted))
        same(f"{words}: rows", list(csv.reader(io.StringIO(rows.decode(), newline=""), strict=True)), wanted)
        guarded = [["'" + it if it[:1] in tuple("=+-@\t\r") else it for it in row] for row in wanted]
        rows = ask(*words, *more, "--csv-guarded")[0]
        same(f"{words}: guarded rows", list(csv.reader(io.StringIO(rows.decode(), newline=""), strict=True)), guarded)
    dot = ask(*words, "--dot")[0]
    same(f"{words}: picture", picture(dot.decode()), pictured(told, sites))
    if shutil.which("dot"):
        drawn = subprocess.run(["dot", "-Tsvg"], input=dot, capture_output=True)
        same(f"{words}: Graphviz", (drawn.returncode, drawn.stderr), (0, b""))
        texts = {html.unescape(t) for t in re.findall(r"<text[^>]*>([^<]*)</text>", drawn.stdout.decode())}
        for pair in told["pairs"]:
            if pair["item"] not in {t.replace("\xa0", " ") for t in texts}:
                sys.exit(f"{words}: {pair['item']} isn't drawn")
    return told


TIMES = {"eventTime": "2024-05-01T08:00:00Z", "eventTimeZoneOffset": "+00:00"}
SITES = ["north", "south_2"]
PLACE = 'https://x.example/?a=1&copy=2,"q"\\'


def write(name, events):
    with open(name, "w") as file:
        body = {"@context": [], "type": "EPCISDocument", "schemaVersion": "2.0", "creationDate": "2024-05-02T00:00:00Z"}
        json.dump({**body, "epcisBody": {"eventList": events}}, file)


def made(given, out):
    return {"type": "TransformationEvent", **TIMES, "inputEPCList": given, "outputEPCList": out}


def shipped(items, place):
    return {"type": "ObjectEvent", **TIMES, "action": "OBSERVE", "epcList": items, "bizStep": "shipping",
            "destinationList": [{"type": "location", "destination": place}]}


with open("list", "w") as file:
    file.write("site north n\nsite south_2 s\n")
os.mkdir("odd")
ask("init", "odd", "list")
ODD = ['a,"b"\\&c', "\\", '"', ",", "&amp;", "\u00e9\\n", "https://id.gs1.org/00/095213211234567896"]
write("north.json", [made(["x"], ODD), shipped(ODD[:4], "s"), shipped(ODD[3:], PLACE), shipped(["x"], "plain"), shipped(["x"], '=cmd,"|A1"'), shipped(["x"], "-1"), shipped(["x"], "@x")])
write("south.json", [made([ODD[0]], ["y"]), shipped(["y"], "n")])
ask("capture", "odd", "north", "north.json")
ask("capture", "odd", "south_2", "south.json")
ask("start", "odd", "north", "x")
compare(SITES, "report", "odd", "north#1")
ask("run", "odd")
told = compare(SITES, "report", "odd", "north#1")
same("the pairs of the odd recall", len(told["pairs"]), 14)
same("what left", len(told["outside"]), 8)
compare(SITES, "trace", "odd", "north", "x")
compare(SITES, "trace", "odd", "north", "y", "--back")

os.mkdir("chain")
ask("init", "chain", os.path.join(EXAMPLES, "sites"))
DAIRY = ["dairy", "plant", "shop-1", "shop-2"]
for site in DAIRY:
    ask("capture", "chain", site, os.path.join(EXAMPLES, site + ".json"))
TANK = "urn:epc:id:sgtin:9521321.000011.tank-7"
ask("start", "chain", "plant", TANK)
ask("run", "chain")
compare(DAIRY, "report", "chain", "plant#1")
compare(DAIRY, "trace", "chain", "plant", TANK)
compare(DAIRY, "trace", "chain", "plant", TANK, "--back")

for form in ("--csv", "--csv-guarded", "--dot"):
    for words, refused in ((("report", "chain", "plant#9"), b"refused UnknownRecall\n"), (("trace", "chain", "plant", "nothing"), b"refused UnknownItem\n")):
        out, err = ask(*words, form, status=1)
        same(f"{words} {form}", out, refused)
        same(f"{words} {form}: sentence", err, ask(*words, status=1)[1])
    out, err = ask("report", "chain", "plant#1", "--json", form, status=2)
    same("two forms", (out, "only one of" in err), (b"", True))
    ask("audit", "chain", form, status=2)
ask("trace", "chain", "plant", TANK, "--csv", "--dot", status=2)
same("--brief", ask("report", "chain", "plant#1", "--csv", "--brief")[0], ask("report", "chain", "plant#1", "--csv")[0])
print(f"forms: {compared} answers are the same as rows, as a picture and as JSON")
PYTHON
