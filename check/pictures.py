#!/usr/bin/env python3
"""Has headless Chromium draw the pictures of `mfpxview`, and compares what is seen with what the runs have.

    check/pictures.py PROGRAM [SCHEDULE..] [--keep DIR]

PROGRAM is a built `mfpxview`. Each SCHEDULE, by default each of the examples and that of docs/pictures, is drawn and mapped. Chromium
draws the pictures and tells of each text how high it is and where it lies, and of each line whether it is dashed and inked. Of a
diagram: an arrow for each frame of `mfpxview run FILE --json --frames`, from and to its nodes, whole where the schedule's lines
delivered it, else dashed. Of a map: each feature once, where `reference_db.py` has it, to a hundredth. Of both: no text below 7 points
on A3, and none beyond the page. It prints what is wrong, and ends with 1 then. With `--keep` the pictures are left in DIR, as SVG and PNG.
"""

import argparse
import base64
import glob
import html
import json
import os
import re
import subprocess
import sys
import tempfile
import xml.etree.ElementTree as tree
from fractions import Fraction

import reference_db
import reference_parser

TOP = os.path.dirname(os.path.dirname(os.path.abspath(__file__)))
# The width of a page of format A3, in points: of a diagram upright, of a map lengthwise.
WIDTHS = {"draw": 842, "map": 1191}
LEAST_POINTS = 7
TITLE = re.compile(r"frame (\d+) (\w+) (\d) -> (\d)(?: slot (\d+))?(?: ballot (\S+))?, (delivered|dropped|waits)")
ANSWERS = ("promise", "nack", "behind", "accepted")
# The map's side, and its lower left corner, in hundredths of a unit.
SIDE, LEFT, BOTTOM = 104_000, 2_400, 110_400
MARK, DOT = "6.00", "2.50"
AT_ONCE = 20

PAGE = """<!DOCTYPE html><meta charset="utf-8"><body style="margin:0"><pre id="facts"></pre><script>
const pictures = %s;
function inked(data, width, x, y) {
  for (let dy = -1; dy <= 1; dy++) for (let dx = -1; dx <= 1; dx++) {
    const at = 4 * ((Math.round(2 * y) + dy) * width + Math.round(2 * x) + dx);
    if (data[at] + data[at + 1] + data[at + 2] < 720) return 1;
  }
  return 0;
}
async function drawn(svg) {
  const host = document.createElement("div");
  document.body.append(host);
  host.attachShadow({mode: "open"}).innerHTML = svg;
  const root = host.shadowRoot.querySelector("svg"), page = root.getBoundingClientRect();
  const texts = [...root.querySelectorAll("text")].map(text => {
    const box = text.getBoundingClientRect();
    return [text.getAttribute("class"), text.textContent, parseFloat(getComputedStyle(text).fontSize),
            box.left - page.left, box.top - page.top, box.right - page.left, box.bottom - page.top];
  });
  const canvas = document.createElement("canvas");
  canvas.width = 2 * page.width; canvas.height = 2 * page.height;
  const image = new Image();
  image.src = "data:image/svg+xml;base64," + btoa(unescape(encodeURIComponent(svg)));
  await image.decode();
  const pen = canvas.getContext("2d");
  pen.drawImage(image, 0, 0, canvas.width, canvas.height);
  const data = pen.getImageData(0, 0, canvas.width, canvas.height).data;
  const lines = [...root.querySelectorAll("g.frame")].map(frame => [...frame.querySelectorAll("line")].map(line => {
    const [x1, y1, x2, y2] = ["x1", "y1", "x2", "y2"].map(name => parseFloat(line.getAttribute(name)));
    let ink = 0;
    for (let k = 1; k < 50; k++) ink += inked(data, canvas.width, x1 + (x2 - x1) * k / 50, y1 + (y2 - y1) * k / 50);
    return [getComputedStyle(line).strokeDasharray != "none", ink / 49];
  }));
  host.remove();
  return {width: page.width, height: page.height, texts, lines, png: canvas.toDataURL().split(",")[1]};
}
(async () => {
  const facts = [];
  for (const svg of pictures) facts.push(await drawn(svg));
  document.getElementById("facts").textContent = JSON.stringify(facts);
})();
</script></body>"""


def run(*words, **named):
    return subprocess.run(words, capture_output=True, check=False, **named)


def chromium(pictures, folder):
    """What Chromium sees of each picture, as the page above tells it."""
    page = os.path.join(folder, "page.html")
    with open(page, "w", encoding="utf-8") as file:
        file.write(PAGE % json.dumps(pictures).replace("</", "<\\/"))
    words = ["chromium", "--headless", "--no-sandbox", "--disable-gpu", "--user-data-dir=" + os.path.join(folder, "profile"),
             "--virtual-time-budget=600000", "--dump-dom", "file://" + page]
    dom = run(*words).stdout.decode()
    facts = re.search(r'<pre id="facts">(\[.*?)</pre>', dom, re.DOTALL)
    if not facts:
        sys.exit("Chromium drew nothing: see check/README.md")
    return json.loads(html.unescape(facts[1]))


def elements(svg):
    """The elements of a picture, with their names as they stand there."""
    root = tree.fromstring(svg)
    for element in root.iter():
        element.tag = element.tag.split("}")[1]
    return root


def title_of(group):
    return group.find("title").text or ""


# ---- diagrams


def fates(told, events):
    """What became of each frame: a word, or None where no rule here says it. `told` has the frames of each line and its stops."""
    waits, came, unsure, sent = set(), set(), set(), []
    for event in events:
        line = told.get(event.line, {"frames": [], "stops": 0, "fault": False})
        new = line["frames"]
        sent += new
        waits |= {frame["frame"] for frame in new}
        if line["fault"] and event.kind != "flush":
            break
        if event.kind == "deliver":
            came.add(event.node)
            waits.discard(event.node)
        elif event.kind == "drop":
            waits.discard(event.node)
        elif event.kind == "flush":
            came |= waits
            waits = set()
        elif event.kind == "round":
            meant = {frame["frame"] for frame in new if is_of_round(frame, event.node, event.what)}
            if line["stops"]:
                unsure |= meant
            came |= meant
            waits -= meant
        if line["fault"]:
            break
    return [None if n in unsure else "waits" if n in waits else "delivered" if n in came else "dropped" for n in range(len(sent))]


def is_of_round(frame, node, members):
    """Whether a manual round of a node among members delivers a frame that is sent in it."""
    if frame["kind"] in ANSWERS:
        return frame["to"] == node and frame["from"] in members
    return frame["from"] == node and frame["to"] in members


def told_by_line(objects):
    """The frames, stops and faults that a run tells, by the schedule's lines."""
    told = {}
    for one in objects:
        line = told.setdefault(one["line"], {"frames": [], "stops": 0, "fault": False})
        if one["what"] == "frame":
            line["frames"].append(one)
        elif one["what"] == "stop":
            line["stops"] += 1
        elif one["what"] in ("fault", "ends"):
            line["fault"] = True
    return told


def judge_diagram(root, seen, objects, events, nodes):
    """What is wrong with a diagram of a run that tells these objects."""
    frames = [one for one in objects if one["what"] == "frame"]
    fate = fates(told_by_line(objects), events)
    lanes = [float(line.get("x1")) for line in root.iter("line") if line.get("class") == "lane"]
    if len(lanes) != nodes:
        yield "%d lanes" % len(lanes)
        return
    groups = [group for group in root.iter("g") if group.get("class") == "frame"]
    head = re.match(r"frames (\d+) to (\d+) of (\d+),|no frame of (\d+),", root.find("text").text)
    first, last, count = [int(n) for n in head.groups()[:3]] if head[1] else (0, -1, int(head[4]))
    if count != len(frames) or len(groups) != last - first + 1:
        yield "%d arrows for frames %d to %d of %d" % (len(groups), first, last, len(frames))
        return
    for number, group, lines in zip(range(first, last + 1), groups, seen["lines"]):
        yield from ("frame %d: %s" % (number, what) for what in judge_arrow(group, lines, frames[number], fate[number], lanes))
    heights = [float(group.find("line").get("y1")) for group in groups]
    for number in range(1, len(heights)):
        if heights[number] < heights[number - 1]:
            yield "frame %d: it is sent before frame %d" % (first + number, first + number - 1)


def judge_arrow(group, seen, frame, fate, lanes):
    """What is wrong with the arrow of a frame, as it stands in the picture and as it is seen."""
    title = TITLE.fullmatch(title_of(group))
    wanted = [frame["frame"], frame["kind"], frame["from"], frame["to"], frame.get("slot"), frame.get("ballot")]
    if not title or [str(one) for one in wanted] != [str(one) for one in title.groups()[:6]]:
        yield "its title is %s" % title_of(group)
        return
    if fate and title[7] != fate:
        yield "%s, not %s" % (title[7], fate)
    lines = group.findall("line")
    from_x, to_x, end = lanes[frame["from"]], lanes[frame["to"]], float(lines[-1].get("x2"))
    if float(lines[0].get("x1")) != from_x:
        yield "it begins elsewhere"
    bend = 10 if from_x == to_x else 0
    aim = {"delivered": to_x, "waits": to_x + bend, "dropped": (from_x + 2 * (to_x + bend)) / 3}[title[7]]
    if abs(end - aim) > 0.01:
        yield "it ends elsewhere"
    if (lines[-1].get("marker-end") is None) != (title[7] == "dropped"):
        yield "its head is wrong"
    for dashed, ink in seen:
        if dashed != (title[7] != "delivered"):
            yield "dashed" if dashed else "not dashed"
        if ink < (0.4 if dashed else 0.8):
            yield "only %d %% of its line is seen" % (100 * ink)


# ---- maps


def features_at(program, data, objects, node, folder):
    """The features that a node has where a run ends: the lines that ask for each are added to its schedule."""
    names = sorted(set(re.findall(rb'"id": *"([A-Za-z0-9._-]+)"', data)))
    if any(one["what"] in ("fault", "ends") for one in objects):
        return None
    path = os.path.join(folder, "asked.schedule")
    with open(path, "wb") as file:
        file.write(data + b"\n" + b"".join(b"query %d get %s\n" % (node, name) for name in names))
    answers = [json.loads(line) for line in run(program, "run", path, "--json").stdout.splitlines()][-2 * len(names):]
    texts = [one["text"] for one in answers if one["what"] == "answer" and one["text"].startswith("get ")]
    return dict(reference_db.document(text[4:]) for text in texts)


def rectangles(events):
    """The rectangles of which a run is asked."""
    return [event.what[-1] for event in events if event.kind == "query" and event.what[0] in ("ever", "always", "within")]


def chart(features, areas):
    """The square of the ground that a map shows, as docs/VIEW.md says: its west, its south and its side."""
    places = [point[1:] for _, points in features.values() for point in points]
    if places:
        low, high = [min(axis) for axis in zip(*places)], [max(axis) for axis in zip(*places)]
        extent = max(h - l for l, h in zip(low, high))
        near = [area for area in areas if all(low[k] - extent <= area[k] and area[k + 2] <= high[k] + extent for k in (0, 1))]
    else:
        near = areas
    places = places + [area[:2] for area in near] + [area[2:] for area in near] or [(0, 0)]
    low, high = [min(axis) for axis in zip(*places)], [max(axis) for axis in zip(*places)]
    extent = max(h - l for l, h in zip(low, high))
    side = extent + extent // 6 + 10
    return [l - (side - (h - l)) // 2 for l, h in zip(low, high)] + [side]


def drawn_at(value, edge, side):
    """The hundredth nearest to where a coordinate lies, and of two the greater; None beyond the map."""
    far = (Fraction(value) - edge) * SIDE / side
    return (2 * far + 1) // 2 if 0 <= far <= SIDE else None


def judge_map(root, features, areas, at):
    """What is wrong with a map of these features at an instant."""
    west, south, side = chart(features, areas)
    groups = [(title_of(group), group) for group in root.iter("g")]
    for name, sequence in features.items():
        marks = [c for title, g in groups if title == name for c in g.findall("circle") if c.get("class") == "mark"]
        ways = [g for title, g in groups if title == name and is_way(g)]
        if len(ways) != 1:
            yield "%s has %d ways" % (name, len(ways))
        value = reference_db.value_at(sequence, at)
        spot = value and (drawn_at(value[0], west, side), drawn_at(value[1], south, side))
        wanted = [] if spot is None or None in spot else ["%.2f %.2f" % ((LEFT + spot[0]) / 100, (BOTTOM - spot[1]) / 100)]
        found = ["%s %s" % (mark.get("cx"), mark.get("cy")) for mark in marks]
        if found != wanted:
            yield "%s is drawn at %s, and is at %s" % (name, found, wanted)
    tagged = [title for title, g in groups if g.get("class") in ("yes", "no", "other") and g.find("rect") is not None]
    if tagged != [str(k + 1) for k in range(len(areas))]:
        yield "the rectangles are %s" % tagged
    marks = [circle for circle in root.iter("circle") if circle.get("class") == "mark"]
    if len(marks) > len(features):
        yield "%d marks of %d features" % (len(marks), len(features))


def is_way(group):
    return any(part.tag == "polyline" or part.get("class") == "dot" and part.get("r") == DOT for part in group)


# ---- both


def judge_texts(seen, points):
    """What is wrong with the texts of a picture whose width on A3 is so many points."""
    shown = [text for text in seen["texts"] if text[1].strip()]
    for kind, text, size, left, top, right, bottom in shown:
        if size * points / seen["width"] < LEAST_POINTS - 0.01:
            yield "%.1f points high: %s" % (size * points / seen["width"], text)
        if left < 0 or top < 0 or right > seen["width"] or bottom > seen["height"]:
            yield "beyond the page: %s" % text
    ids = [text for text in shown if text[0] == "id"]
    for k, one in enumerate(ids):
        for other in ids[k + 1:]:
            if min(one[5], other[5]) - max(one[3], other[3]) > 1 and min(one[6], other[6]) - max(one[4], other[4]) > 3:
                yield "%s lies over %s" % (one[1], other[1])


def pictures_of(program, path, folder):
    """The pictures of a schedule: of each its kind, its text, and what is known of the run."""
    with open(path, "rb") as file:
        data = file.read()
    try:
        nodes, events = reference_parser.read(data)
    except reference_parser.Faulty:
        return
    objects = [json.loads(line) for line in run(program, "run", path, "--json", "--frames").stdout.splitlines()]
    for kind in WIDTHS:
        to = os.path.join(folder, "%s.%s.svg" % (os.path.splitext(os.path.basename(path))[0], kind))
        done = run(program, kind, path, "-o", to)
        if os.path.exists(to):
            with open(to, encoding="utf-8") as file:
                yield kind, to, file.read(), (data, nodes, events, objects)
        elif kind == "draw" or b"is down" not in done.stderr:
            print("%s: no picture: %s" % (path, done.stderr.decode().strip()))


def judge(program, kind, svg, known, seen, folder):
    """What is wrong with a picture."""
    data, nodes, events, objects = known
    yield from judge_texts(seen, WIDTHS[kind])
    if kind == "draw":
        yield from judge_diagram(elements(svg), seen, objects, events, nodes)
        return
    features = features_at(program, data, objects, 0, folder)
    if features is not None:
        last = max((points[-1][0] for _, points in features.values()), default=0)
        yield from judge_map(elements(svg), features, rectangles(events), last)


def main():
    parser = argparse.ArgumentParser()
    parser.add_argument("program")
    parser.add_argument("schedules", nargs="*")
    parser.add_argument("--keep")
    words = parser.parse_args()
    own = glob.glob(os.path.join(TOP, "examples", "*.schedule")) + glob.glob(os.path.join(TOP, "docs", "pictures", "*.schedule"))
    wrong = count = arrows = 0
    with tempfile.TemporaryDirectory() as room:
        folder = words.keep or room
        os.makedirs(folder, exist_ok=True)
        all_pictures = [one for path in words.schedules or sorted(own) for one in pictures_of(words.program, path, folder)]
        for start in range(0, len(all_pictures), AT_ONCE):
            some = all_pictures[start:start + AT_ONCE]
            for (kind, to, svg, known), seen in zip(some, chromium([one[2] for one in some], room)):
                if words.keep:
                    with open(to.removesuffix("svg") + "png", "wb") as file:
                        file.write(base64.b64decode(seen["png"]))
                for what in judge(words.program, kind, svg, known, seen, room):
                    print("%s: %s" % (os.path.basename(to), what))
                    wrong += 1
                count += 1
                arrows += len(seen["lines"])
    print("%d pictures with %d arrows: %d wrong" % (count, arrows, wrong))
    sys.exit(1 if wrong else 0)


if __name__ == "__main__":
    main()
