#!/usr/bin/env python3
"""A map to look at: each answer on it is the proved program's.

    python3 examples/map/serve.py              then open http://127.0.0.1:8000/
    python3 examples/map/serve.py --help

It has the boxes of islands.csv, or those of another .csv or .geojson. The page also shows their middle points, in the tree that
`pack` makes of a load of them: each parent's box in the colour of its level, and filled where the question reaches it. By its
contract a search of this tree opens no other parent.

This draws docs/map.png, while the map is served:

    chromium --headless --no-sandbox --hide-scrollbars --window-size=1200,690 --virtual-time-budget=5000 \\
        --screenshot=docs/map.png 'http://127.0.0.1:8000/#points;hit;-13,35,30,60;-40,72,60'
"""

import argparse
import json
import subprocess
import sys
from http.server import BaseHTTPRequestHandler, HTTPServer
from pathlib import Path

HERE = Path(__file__).resolve().parent
sys.path += [str(HERE.parent / "clients"), str(HERE.parents[1] / "scripts")]

from boxes import Boxes
from command import asked
from degrees import Degrees, Whole
from files import read
from picture import tree
from vaikrone import PROGRAM


READING = {"in", "hit", "at", "within", "near", "near-within", "pairs", "size"}


def distance(box, point):
    across = [max(box[k] - point[k], 0, point[k] - box[k + 2]) for k in (0, 1)]
    return across[0] ** 2 + across[1] ** 2


def meets(a, b):
    return a[0] <= b[2] and b[0] <= a[2] and a[1] <= b[3] and b[1] <= a[3]


def middle(box):
    x, y = (box[0] + box[2]) // 2, (box[1] + box[3]) // 2
    return x, y, x, y


class Map:
    """Boxes in a process of the program, and with points the parents of the tree that it packs of them."""

    def __init__(self, rows, program, has_tree):
        self.program, self.has_tree, self.parents = program, has_tree, []
        self.boxes = Boxes(program=program)
        self.boxes.load(rows)
        self.pack()

    def pack(self):
        """The parents of a load of the points, a (level, box) each."""
        if self.has_tree:
            lines = "".join(f"{x} {y}\n" for x, y, _, _ in self.boxes.boxes.values())
            stored = subprocess.run([self.program, "pack"], input=lines.encode(), stdout=subprocess.PIPE, check=True).stdout
            self.parents = tree(stored)[1]

    def ask(self, words):
        """The program's answer, and which parents the question reaches."""
        answer = asked(self.boxes, words, Whole)
        if words[0] not in READING:
            self.pack()
        return {"answer": answer, "reached": self.reached(words, answer)}

    def reached(self, words, answer):
        if words[0] == "hit":
            box = Whole.box(words[1:])
            return [k for k, (_, parent) in enumerate(self.parents) if meets(parent, box)]
        if words[0] == "near" and answer:
            point = Whole.point(words[1:3])
            return [k for k, (_, parent) in enumerate(self.parents) if distance(parent, point) <= answer[-1][2]]
        return []

    def state(self):
        return {"rows": list(self.boxes.boxes.items()), "parents": self.parents}


class Handler(BaseHTTPRequestHandler):
    def do_GET(self):
        name = self.path.strip("/")
        if not name:
            self.reply(200, (HERE / "map.html").read_bytes(), "text/html; charset=utf-8")
        elif name in self.server.maps:
            self.reply(200, json.dumps(self.server.maps[name].state()).encode())
        else:
            self.reply(404, b"{}")

    def do_POST(self):
        shown = self.server.maps.get(self.path.strip("/"))
        try:
            words = json.loads(self.rfile.read(int(self.headers["Content-Length"])))
            answer = shown.ask([str(word) for word in words])
        except (AttributeError, IndexError, KeyError, TypeError, ValueError) as fault:
            self.reply(400, json.dumps({"error": str(fault)}).encode())
        else:
            self.reply(200, json.dumps(answer).encode())

    def reply(self, status, body, kind="application/json"):
        self.send_response(status)
        self.send_header("Content-Type", kind)
        self.send_header("Content-Length", str(len(body)))
        self.end_headers()
        self.wfile.write(body)

    def log_message(self, *_):
        pass


def main():
    parser = argparse.ArgumentParser(description="Serves a map whose answers are the proved program's.")
    parser.add_argument("--port", type=int, default=8000)
    parser.add_argument("--program", default=PROGRAM, help="the program that `rt run` built (or VAIKRONE names it)")
    parser.add_argument("--load", metavar="FILE", help="a .csv of whole numbers, or a .geojson; without it islands.csv")
    chosen = parser.parse_args()
    file = chosen.load or str(HERE / "islands.csv")
    rows = read(file, Whole if file.endswith(".csv") else Degrees)
    server = HTTPServer(("127.0.0.1", chosen.port), Handler)
    server.maps = {
        "boxes": Map(rows, chosen.program, has_tree=False),
        "points": Map([(number, middle(box)) for number, box in rows], chosen.program, has_tree=True),
    }
    print(f"http://127.0.0.1:{server.server_port}/", flush=True)
    try:
        server.serve_forever()
    except KeyboardInterrupt:
        pass
    finally:
        for shown in server.maps.values():
            shown.boxes.close()


if __name__ == "__main__":
    main()
