#!/usr/bin/env python3
"""Tells which texts of SVGs touch one another, or the border of a box, or stick out of the picture.

    bench/pictures_overlap.py examples/*/*.svg

It reads the SVGs that `room_view` writes, and takes letters to be as wide as there. A line a finding; the status is
1 if there is one. A text may stand in a box, or apart from it, but not on its border.
"""
import sys
import xml.etree.ElementTree as tree

LETTER, ABOVE, BELOW = 6.6, 8.5, 2.5


def boxes_of(svg):
    """The texts of a picture and its boxes, as (what, left, top, right, foot)."""
    texts, boxes = [], []
    for node in svg.iter():
        kind = node.tag.split('}')[-1]
        if kind == 'text':
            letters = ''.join(node.itertext())
            width = len(letters) * LETTER
            by = {'middle': width / 2, 'end': width}.get(node.get('text-anchor'), 0)
            left, line = float(node.get('x')) - by, float(node.get('y'))
            texts.append((letters, left, line - ABOVE, left + width, line + BELOW))
        elif kind == 'rect' and node.get('stroke') != node.get('fill'):
            left, top = float(node.get('x')), float(node.get('y'))
            right, foot = left + float(node.get('width')), top + float(node.get('height'))
            boxes.append(('a box', left, top, right, foot))
    return texts, boxes


def touch(one, other):
    return one[1] < other[3] and other[1] < one[3] and one[2] < other[4] and other[2] < one[4]


def holds(outer, inner):
    return outer[1] <= inner[1] and outer[2] <= inner[2] and outer[3] >= inner[3] and outer[4] >= inner[4]


def findings_in(svg):
    whole = ('the picture', 0, 0, float(svg.get('width')), float(svg.get('height')))
    texts, boxes = boxes_of(svg)
    for number, text in enumerate(texts):
        if not holds(whole, text):
            yield f'{text[0]!r} sticks out'
        for other in texts[number + 1:]:
            if touch(text, other):
                yield f'{text[0]!r} touches {other[0]!r}'
        for place, box in enumerate(boxes):
            is_covered = any(holds(later, text) for later in boxes[place + 1:])
            if touch(text, box) and not holds(box, text) and not is_covered:
                yield f'{text[0]!r} is on the border of a box at {box[1]:.0f}, {box[2]:.0f}'


found = 0
for name in sys.argv[1:]:
    for finding in findings_in(tree.parse(name).getroot()):
        print(f'{name}: {finding}')
        found += 1
sys.exit(found > 0)
