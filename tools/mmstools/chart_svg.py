"""The shapes of a chart as elements of SVG, and the picture of an SVG as PNG."""

import re
import subprocess
from html import escape

from .chart_lines import LOOKS, Tone
from .chart_text import FONT, SIZE
from .texts import BadText

INK, SOFT, FAINT, WHITE = "#0f172a", "#475569", "#cbd5e1", "#ffffff"
GREATEST = 32000  # dots of a PNG in width and height, as rsvg-convert draws them
HOVER = "g.e:hover line{stroke-width:2.4} g.e:hover text{text-decoration:underline}"


class Drawing:
    """Elements of SVG, one behind another."""

    def __init__(self):
        self.parts: list[str] = []

    def text(self, x, y, words, size=SIZE, fill=INK, bold=False, anchor="start", italic=False):
        """Words, whose base line is at y."""
        style = ' font-weight="bold"' if bold else ""
        style += f' text-anchor="{anchor}"' if anchor != "start" else ""
        style += ' font-style="italic"' if italic else ""
        words = re.sub(r"[\x00-\x1f\x7f\ud800-\udfff\ufffe\uffff]", "?", words)
        where = f'x="{x:.1f}" y="{y:.1f}" font-size="{size}" fill="{fill}"'
        self.parts.append(f"<text {where}{style}>{escape(words)}</text>")

    def line(self, x1, y1, x2, y2, stroke, wide=1.4, dashes="", arrow="", title=""):
        """A line, with an arrow of that tone at its end."""
        style = f' stroke-dasharray="{dashes}"' if dashes else ""
        style += f' marker-end="url(#to-{arrow})"' if arrow else ""
        where = f'x1="{x1:.1f}" y1="{y1:.1f}" x2="{x2:.1f}" y2="{y2:.1f}"'
        self.parts.append(f'<line {where} stroke="{stroke}" stroke-width="{wide}"{style}' + self.titled("line", title))

    def rect(self, x, y, wide, high, fill, stroke="none", corner=0, dashes="", title=""):
        """A rectangle."""
        style = f' stroke-dasharray="{dashes}"' if dashes else ""
        self.parts.append(
            f'<rect x="{x:.1f}" y="{y:.1f}" width="{wide:.1f}" height="{high:.1f}" rx="{corner}" fill="{fill}"'
            f' stroke="{stroke}"{style}' + self.titled("rect", title)
        )

    def circle(self, x, y, radius, fill, stroke, title=""):
        """A circle."""
        self.parts.append(
            f'<circle cx="{x:.1f}" cy="{y:.1f}" r="{radius}" fill="{fill}" stroke="{stroke}" stroke-width="2.4"'
            + self.titled("circle", title)
        )

    def sign(self, path, x, y, stroke, fill="none"):
        """A small sign, whose path goes round the point 0,0."""
        where = f'transform="translate({x:.1f},{y:.1f})" d="{path}"'
        self.parts.append(f'<path {where} stroke="{stroke}" stroke-width="1.8" fill="{fill}"/>')

    def open(self, title):
        """Begins a group that tells its title where the pointer rests on it."""
        self.parts.append(f'<g class="e"><title>{self.told(title)}</title>')

    def close(self):
        """Ends a group."""
        self.parts.append("</g>")

    def titled(self, name, title):
        """The end of an element, with a title where there is one."""
        return f"><title>{self.told(title)}</title></{name}>" if title else "/>"

    @staticmethod
    def told(title):
        """A title without what XML can't hold."""
        return escape(re.sub(r"[\x00-\x09\x0b-\x1f\x7f\ud800-\udfff\ufffe\uffff]", "?", title))


def document(wide: float, high: float, name: str, parts: list[str]) -> str:
    """The SVG of these elements."""
    arrows = [
        f'<marker id="to-{tone.value}" viewBox="0 0 8 8" refX="7.4" refY="4" markerWidth="7.5" markerHeight="7.5"'
        f' orient="auto"><path d="M0,0.6 L8,4 L0,7.4 z" fill="{LOOKS[tone].colour}"/></marker>'
        for tone in Tone
    ]
    head = [
        f'<svg xmlns="http://www.w3.org/2000/svg" width="{wide:.0f}" height="{high:.0f}"'
        f' viewBox="0 0 {wide:.0f} {high:.0f}" font-family="{FONT}">',
        f"<title>{Drawing.told(name)}</title>",
        "<defs>",
        *arrows,
        f"</defs><style>{HOVER}</style>",
        f'<rect width="100%" height="100%" fill="{WHITE}"/>',
    ]
    return "\n".join(head + parts + ["</svg>"]) + "\n"


def write_png(svg: str, path: str) -> None:
    """Writes the picture of a chart as PNG, twice as large as the SVG, or less where that is too large to be drawn."""
    wide, high = (int(number) for number in re.search(r'width="(\d+)" height="(\d+)"', svg).groups())
    zoom = min(2.0, GREATEST / max(wide, high))
    if zoom < 1:
        raise BadText(
            f"a picture of {wide} by {high} dots is too large for PNG; write it as .svg, or choose a part with"
            " --places A-B or --clients N,N"
        )
    words = ["rsvg-convert", "--unlimited", "-z", f"{zoom:.3f}", "-o", path]
    try:
        done = subprocess.run(words, input=svg.encode(), stderr=subprocess.PIPE)
    except FileNotFoundError:
        raise BadText("rsvg-convert is missing, which draws PNG (Debian: apt-get install librsvg2-bin)") from None
    if done.returncode:
        raise BadText("rsvg-convert: " + done.stderr.decode("utf-8", "replace").strip())
