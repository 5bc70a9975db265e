"""Draws crates.svg: the crates of crates.txt, and a line from each crate to those
it stands on, but for those that lie below another one that it stands on.

    python3 docs/img/crates.py            writes crates.svg
    python3 docs/img/crates.py --check    says what of it isn't so any more
"""
import os
import sys

HERE = os.path.dirname(os.path.abspath(__file__))

# A row for each height, the uppermost first; five columns, from the left.
# Each crate with its class of colour and a few words.
ROWS = [
    [None, None, None, ("recall_cli", "p", "program, machine's files"), None],
    [None, None, ("command_line", "p", "words of a command line"), None, None],
    [("frame_lines", "p", "frames as lines"), ("folder_commands", "p", "captures, starts, runs"),
     ("folder_questions", "p", "reports, traces, audits"), None, None],
    [("recall_sim", "p", "scripts alone"), None, ("site_folders", "p", "folder of the sites' files"),
     ("outcome_forms", "p", "words and JSON"), None],
    [("script_core", "p", "scripts"), ("site_threads", "a", "running sites"),
     ("recall_outcomes", "p", "what commands come to"), ("report_forms", "p", "rows and pictures"), None],
    [("recall_text", "p", "texts, written and read"), ("wire_core", "a", "mailboxes"), None, None,
     ("site_store", "d", "a site in a file")],
    [None, ("world_core", "a", "all sites, frames sent"), ("query_core", "p", "how recalls stand"),
     ("report_core", "p", "reports, traces"), ("site_tables", "d", "tables in a database")],
    [None, ("keeper_core", "s", "what keeps a record"), ("site_recovery", "a", "consistency of records"), None,
     ("site_rows", "d", "rows of a record")],
    [None, None, ("site_core", "s", "one site: record and step"), None, None],
    [("document_convert", "e", "documents as found"), ("scholten_core", "m", "engagement"), None,
     ("gap_core", "e", "what packings miss"), None],
    [("document_lint", "e", "what is strange in documents"), ("frame_core", "m", "numbers, messages"),
     ("trace_core", "e", "related pairs, reach"), ("event_writing", "e", "packings written"), None],
    [None, None, ("event_json", "e", "documents, events"), ("item_spellings", "e", "items as scanned"), None],
    [None, None, ("epc_core", "e", "items"), None, None],
]
# Lines that go down between two columns, as there are crates in both: the column
# to the right, and where in the gap.
BETWEEN = {
    ("command_line", "script_core"): (1, -5),
    ("frame_lines", "recall_text"): (1, 0),
    ("command_line", "document_convert"): (1, 10),
    ("folder_commands", "document_lint"): (1, 5),
    ("document_convert", "item_spellings"): (3, 0),
    ("folder_questions", "event_writing"): (4, 5),
    ("report_forms", "item_spellings"): (4, 0),
    ("recall_outcomes", "gap_core"): (3, 5),
    ("recall_outcomes", "item_spellings"): (3, -5),
    ("site_store", "keeper_core"): (2, 0),
}
KEYS = [("p", "program and commands"), ("a", "all sites"), ("s", "one site"), ("d", "on disk"), ("m", "messages"),
        ("e", "events and items")]
STYLE = """\
    text { font-family: "DejaVu Sans", Verdana, Helvetica, Arial, sans-serif; text-anchor: middle }
    .name { font-size: 13px; font-weight: bold; fill: #1c2430 }
    .what { font-size: 10.5px; fill: #3c4756 }
    .key { font-size: 12px; fill: #7d8794; text-anchor: start }
    .line { stroke: #7d8794; stroke-width: 1.5; fill: none }
    .p { fill: #f7dfe3; stroke: #b8566a; stroke-width: 1.5 }
    .a { fill: #e6defa; stroke: #7a5bc4; stroke-width: 1.5 }
    .s { fill: #fbeccb; stroke: #b07d14; stroke-width: 1.5 }
    .d { fill: #dfe4ea; stroke: #66727f; stroke-width: 1.5 }
    .m { fill: #d7e8fa; stroke: #2f73b8; stroke-width: 1.5 }
    .e { fill: #d9f0dd; stroke: #3a8a4d; stroke-width: 1.5 }"""
WIDE, HIGH, ACROSS, DOWN, LEFT, TOP = 166, 44, 196, 76, 14, 20


def crates():
    """What each crate that isn't one of tests stands on of the others."""
    stands = {}
    with open(os.path.join(HERE, "../../crates.txt")) as lines:
        for line in lines:
            if ":" in line and not line.startswith("#"):
                head, rest = line.split(":", 1)
                stands[head.split()[0]] = rest.split()
    kept = [name for name in stands if not name.endswith("_tests")]
    return {name: [below for below in stands[name] if below in kept] for name in kept}


def lines_of(stands):
    """The lines: no crate below another one that the same crate stands on."""
    below = {}
    for name in stands:  # lowest first
        below[name] = set(stands[name]).union(*(below[other] for other in stands[name]))
    return [(name, other) for name in stands for other in stands[name]
            if not any(other in below[third] for third in stands[name])]


def picture():
    stands = crates()
    places = {box[0]: (row, column) for row, boxes in enumerate(ROWS) for column, box in enumerate(boxes) if box}
    for name in sorted(set(stands) ^ set(places)):
        sys.exit(f"crates.py: {name} stands in crates.txt or in the picture, and not in both")

    def middle(column):
        return LEFT + ACROSS * column + WIDE // 2

    def top(row):
        return TOP + DOWN * row

    width, height = 2 * LEFT + 4 * ACROSS + WIDE, TOP + DOWN * len(ROWS)
    out = [f'<svg xmlns="http://www.w3.org/2000/svg" viewBox="0 0 {width} {height}" width="{width}" '
           f'height="{height}" role="img" aria-labelledby="title">',
           '  <title id="title">The crates of recall, lowest at the bottom. '
           'A line leads down to a crate that the upper one stands on.</title>',
           '  <style>', STYLE, '  </style>', '  <g class="line">']
    lines = lines_of(stands)

    def end(name, other, upper):
        """Where a line leaves the upper crate's edge, or comes to the lower one's: lines share
        an edge by where they lead."""
        here = [line for line in lines if line[0 if upper else 1] == (name if upper else other)]
        here.sort(key=lambda line: (places[line[1 if upper else 0]][1], places[line[1 if upper else 0]][0]))
        return middle(places[name if upper else other][1]) + 26 * (2 * here.index((name, other)) - len(here) + 1) // 2

    for name, other in lines:
        (row, column), (below, to) = places[name], places[other]
        x, y, u, v = end(name, other, True), top(row) + HIGH, end(name, other, False), top(below)
        if (name, other) in BETWEEN:
            right, aside = BETWEEN[name, other]
            gap = LEFT + ACROSS * right - (ACROSS - WIDE) // 2 + aside
            way = f"V{y + 10 + aside} H{gap} V{v - 10 + aside // 2} H{u} V{v}"
        elif column == to:
            way = f"V{v}"
        elif below == row + 1:
            way = f"L{u} {v}"
        else:
            way = f"V{y + 16} H{u} V{v}"
        out.append(f'    <path d="M{x} {y} {way}"/>')
    out.append('  </g>')
    for row, boxes in enumerate(ROWS):
        for column, box in enumerate(boxes):
            if box:
                name, kind, what = box
                out += ['  <g>', f'    <rect class="{kind}" x="{LEFT + ACROSS * column}" y="{top(row)}" '
                        f'width="{WIDE}" height="{HIGH}" rx="7"/>',
                        f'    <text class="name" x="{middle(column)}" y="{top(row) + 19}">{name}</text>',
                        f'    <text class="what" x="{middle(column)}" y="{top(row) + 35}">{what}</text>', '  </g>']
    for number, (kind, what) in enumerate(KEYS):
        y = TOP + 24 * number
        out += [f'  <rect class="{kind}" x="{LEFT}" y="{y}" width="18" height="14" rx="3"/>',
                f'  <text class="key" x="{LEFT + 26}" y="{y + 12}">{what}</text>']
    out.append('</svg>')
    return "\n".join(out) + "\n"


def main():
    path, now = os.path.join(HERE, "crates.svg"), picture()
    if sys.argv[1:] == ["--check"]:
        with open(path) as text:
            if text.read() != now:
                sys.exit("crates.svg isn't what docs/img/crates.py draws: run it")
    else:
        with open(path, "w") as text:
            text.write(now)


main()
