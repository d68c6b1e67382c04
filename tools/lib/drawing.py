"""Series of values over time as SVG: a panel a name; a value holds until the next one, so the line goes in steps. Moments are numbers; `date` writes one."""
import xml.sax.saxutils

WIDE, HIGH, LEFT, RIGHT, ABOVE, BELOW = 900, 180, 90, 20, 28, 26
STYLE = (".name{font-weight:600}.value{text-anchor:end;fill:#555}.date{fill:#555}.end{text-anchor:end}.rule{stroke:#ddd}"
         ".line{fill:none;stroke:#1f5fa8;stroke-width:1.5}circle{fill:#1f5fa8}")
GAP_STYLE = ".gap{fill:#f3dcd4}"


def panel(top, name, points, first, last, gaps=()):
    """A name with its points, pairs of a moment and a number; in gaps, pairs of moments, nothing is known."""
    low, high = min(v for _, v in points), max(v for _, v in points)
    across, up = max(last - first, 1), (high - low) or 1
    def x(t): return LEFT + (WIDE - LEFT - RIGHT) * (min(max(t, first), last) - first) / across
    def y(v): return top + ABOVE + (HIGH - ABOVE - BELOW) * (1 - ((v - low) / up if high > low else 0.5))
    lines = [f'<rect x="{x(a):.1f}" y="{top + ABOVE}" width="{max(x(b) - x(a), 1):.1f}" height="{HIGH - ABOVE - BELOW}" class="gap"/>' for a, b in gaps]
    lines.append(f'<text x="{LEFT}" y="{top + 18}" class="name">{xml.sax.saxutils.escape(name)}</text>')
    for v in {low, high}:
        lines.append(f'<path d="M{LEFT} {y(v):.1f}H{WIDE - RIGHT}" class="rule"/><text x="{LEFT - 8}" y="{y(v) + 4:.1f}" class="value">{v:.6g}</text>')
    lines.append(f'<path d="{"".join(steps(points, last, gaps, x, y))}" class="line"/>')
    if len(points) <= 200:
        lines += [f'<circle cx="{x(t):.1f}" cy="{y(v):.1f}" r="2.5"/>' for t, v in points]
    return "\n".join(lines)


def steps(points, last, gaps, x, y):
    """The path of a line, which ends where a gap begins, and begins anew behind it."""
    ends = sorted(gaps)
    yield f"M{x(points[0][0]):.1f} {y(points[0][1]):.1f}"
    for t, v in points[1:]:
        if ends and t >= ends[0][1]:
            while ends and t >= ends[0][1]:
                begin = ends.pop(0)[0]
                yield f"H{x(begin):.1f}" if begin >= points[0][0] else ""
            yield f"M{x(t):.1f} {y(v):.1f}"
        else:
            yield f"H{x(t):.1f}V{y(v):.1f}"
    yield f"H{x(ends[0][0] if ends else last):.1f}"


def picture(drawn, date):
    """`drawn` are names with their points, and perhaps their gaps."""
    drawn = [(name, points, rest[0] if rest else ()) for name, points, *rest in drawn]
    first, last = min(points[0][0] for _, points, _ in drawn), max(points[-1][0] for _, points, _ in drawn)
    tall, style = HIGH * len(drawn) + 24, STYLE + (GAP_STYLE if any(gaps for _, _, gaps in drawn) else "")
    parts = [panel(HIGH * k, name, points, first, last, gaps) for k, (name, points, gaps) in enumerate(drawn)]
    foot = f'<text x="{LEFT}" y="{tall - 8}" class="date">{date(first)}</text><text x="{WIDE - RIGHT}" y="{tall - 8}" class="date end">{date(last)}</text>'
    return (f'<svg xmlns="http://www.w3.org/2000/svg" width="{WIDE}" height="{tall}" font-family="sans-serif" font-size="12"><style>{style}</style>\n'
            f'<rect width="{WIDE}" height="{tall}" fill="#fff"/>\n' + "\n".join([*parts, foot]) + "\n</svg>\n")


class Thinned:
    """Points of which, in each of so many stretches of time, the first, the least, the greatest and the last are kept: what a picture can show."""

    def __init__(self, first, last, stretches=800):
        self.first, self.width, self.kept, self.now = first, max((last - first) / stretches, 1), [], None

    def add(self, t, v):
        place = int((t - self.first) / self.width)
        if self.now is None or self.now[0] != place:
            self.close()
            self.now = [place, (t, v), (t, v), (t, v), (t, v)]
            return
        self.now[2] = min(self.now[2], (t, v), key=lambda it: it[1])
        self.now[3] = max(self.now[3], (t, v), key=lambda it: it[1])
        self.now[4] = t, v

    def close(self):
        if self.now:
            self.kept += sorted(dict.fromkeys(self.now[1:]), key=lambda it: it[0])
            self.now = None

    def points(self):
        self.close()
        return self.kept
