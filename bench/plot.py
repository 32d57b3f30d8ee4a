"""Line plots as SVG: panels side by side, both axes logarithmic, with one scale for all. A series is known by its marker
and its dashes, so a print without colours can be read too."""

import html
import math

# colour, dashes, marker; in the order of the series
STYLES = (("#0072b2", "none", "circle"), ("#d55e00", "7 4", "square"), ("#444444", "2 3", "triangle"))
WIDE, HIGH, INSET = 240, 250, 12                # of a panel; its points keep clear of its sides
LEFT, TOP, GAP, BELOW, RIGHT = 90, 112, 28, 60, 20


def steps(low, high):
    """1, 2, 5, 10, .. from the last that is at most low to the first that is at least high."""
    every = [m * 10 ** e for e in range(int(math.log10(low)), int(math.log10(high)) + 2) for m in (1, 2, 5)]
    return [s for s in every if max(t for t in every if t <= low) <= s <= min(t for t in every if t >= high)]


def scale(ticks, at, length):
    """From a value to its place: the first tick is at `at`, the last `length` further."""
    return lambda value: at + length * math.log(value / ticks[0]) / math.log(ticks[-1] / ticks[0])


def tag(name, inner="", **given):
    words = (' %s="%s"' % (key.replace("_", "-"), "%.1f" % value if isinstance(value, float) else value) for key, value in given.items())
    return "<%s%s>%s</%s>" % (name, "".join(words), inner, name)


def text(x, y, words, anchor="middle", size=12, weight="normal", **more):
    return tag("text", html.escape(words), x=x, y=y, text_anchor=anchor, font_size=size, font_weight=weight, **more)


def path(points, style):
    return tag("polyline", points=" ".join("%.1f,%.1f" % point for point in points), fill="none", stroke=style[0], stroke_width=2,
               stroke_dasharray=style[1])


def grid(x1, y1, x2, y2):
    return tag("line", x1=x1, y1=y1, x2=x2, y2=y2, stroke="#dddddd")


def marker(x, y, style):
    colour, _, shape = style
    look = {"fill": "white", "stroke": colour, "stroke_width": 2}
    if shape == "circle":
        return tag("circle", cx=x, cy=y, r=4, **{**look, "fill": colour})
    if shape == "square":
        return tag("rect", x=x - 4, y=y - 4, width=8, height=8, **look)
    return tag("path", d="M%.1f %.1f l5 9 h-10 z" % (x, y - 5.5), **look)


def legend(names):
    for i, (style, name) in enumerate(zip(STYLES, names)):
        x = LEFT + 150 * i
        yield from (path([(x, 46), (x + 40, 46)], style), marker(x + 20, 46, style), text(x + 48, 50, name, anchor="start"))


def panel(left, across, up, ticks, series):
    """across, up: the scales; ticks: of both; series: the points of each."""
    for tick in ticks[0]:
        yield grid(across(tick), TOP, across(tick), TOP + HIGH + 5)
        yield text(across(tick), TOP + HIGH + 20, "{:,}".format(tick))
    for tick in ticks[1]:
        yield grid(left, up(tick), left + WIDE, up(tick))
    yield tag("rect", x=left, y=TOP, width=WIDE, height=HIGH, fill="none", stroke="#666666")
    for style, points in zip(STYLES, series):
        places = [(across(x), up(y)) for x, y in points]
        yield path(places, style)
        yield from (marker(x, y, style) for x, y in places)


def svg(title, axes, names, panels):
    """axes: what x and y are; names: of the series; panels: the name of each, what it is, and for each series its points (x, y)."""
    points = [point for _, _, series in panels for one in series for point in one]
    ticks = sorted({x for x, _ in points}), steps(min(y for _, y in points), max(y for _, y in points))
    up = scale(ticks[1], TOP + HIGH, -HIGH)
    width, height = LEFT + len(panels) * (WIDE + GAP) - GAP + RIGHT, TOP + HIGH + BELOW
    parts = [tag("title", html.escape(title)), tag("rect", width=width, height=height, fill="white"),
             text(LEFT, 24, title, anchor="start", size=15, weight="bold"), *legend(names),
             text(0, 0, axes[1], transform="translate(16 %d) rotate(-90)" % (TOP + HIGH / 2))]
    parts += [text(LEFT - 8, up(tick) + 4, "{:,}".format(tick), anchor="end") for tick in ticks[1]]
    for i, (name, what, series) in enumerate(panels):
        left = LEFT + i * (WIDE + GAP)
        middle = left + WIDE / 2
        parts += [text(middle, TOP - 26, name, weight="bold", size=13), text(middle, TOP - 10, what, size=11),
                  *panel(left, scale(ticks[0], left + INSET, WIDE - 2 * INSET), up, ticks, series), text(middle, TOP + HIGH + 42, axes[0])]
    return tag("svg", "\n" + "\n".join(parts) + "\n", xmlns="http://www.w3.org/2000/svg", width=width, height=height,
               viewBox="0 0 %d %d" % (width, height), font_family="sans-serif", role="img") + "\n"
