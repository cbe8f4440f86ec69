# SPDX-License-Identifier: MIT
"""Pictures of bars, as SVG: what docs/PERFORMANCE.md shows beside its tables."""
# The colors of the bars of a group, and how wide a picture is.
SHADES, WIDTH = ("#9ecae1", "#4292c6", "#084594"), 760


def rect(x, y, width, height, shade):
    return (f'<rect x="{x}" y="{y:.1f}" width="{width}" height="{height:.1f}"'
            f' fill="{SHADES[shade]}"/>')


def text(x, y, words, form='text-anchor="middle"'):
    return f'<text x="{x}" y="{y:.1f}" {form}>{words}</text>'


def line(y, left, right):
    """A horizontal line, dashed."""
    return (f'<line x1="{left}" y1="{y:.1f}" x2="{right}" y2="{y:.1f}" stroke="#888"'
            ' stroke-dasharray="4"/>')


def key(names, top):
    """What each color means."""
    for bar, name in enumerate(names):
        left = 60 + bar * 120
        yield from (rect(left, top, 14, 14, bar), text(left + 20, top + 12, name, ""))


def svg(rows, tall):
    return "\n".join([f'<svg xmlns="http://www.w3.org/2000/svg" width="{WIDTH}" height="{tall}"'
                      ' font-family="sans-serif" font-size="12">', *rows, "</svg>\n"])
