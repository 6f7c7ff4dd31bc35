"""The parts of an SVG that is readable on light and on dark."""
from html import escape

WIDTH, HEIGHT = 480, 352

LIGHT = {"ground": "#ffffff", "frame": "#d0d7de", "ink": "#1f2328", "faint": "#59636e", "full": "#54708c", "set": "#a9bfd6",
         "bare": "#eaeef2", "mark": "#b3360a", "good": "#1a7f37"}
DARK = {"ground": "#0d1117", "frame": "#3d444d", "ink": "#f0f6fc", "faint": "#9aa5b1", "full": "#7d9cbd", "set": "#4b6888",
        "bare": "#21262d", "mark": "#ffb077", "good": "#4ac26b"}


def colours(palette):
    """A rule for each colour: as what fills a shape, and, where its name ends in a line, as what is drawn around it."""
    return " ".join(f".{name}{{fill:{code}}} .{name}-line{{stroke:{code};fill:none}}" for name, code in palette.items())


def rectangle(x, y, width, height, name, corner=0):
    return f'<rect x="{x:g}" y="{y:g}" width="{width:g}" height="{height:g}" rx="{corner:g}" class="{name}"/>'


def circle(x, y, radius, name):
    return f'<circle cx="{x:g}" cy="{y:g}" r="{radius:g}" class="{name}"/>'


def shape(points, name):
    return f'<polygon points="{" ".join(f"{x:g},{y:g}" for x, y in points)}" class="{name}"/>'


def line(x, y, to_x, to_y, name):
    return f'<line x1="{x:g}" y1="{y:g}" x2="{to_x:g}" y2="{to_y:g}" class="{name}"/>'


def text(x, y, words, name="ink", size=12, anchor="start", weight="normal"):
    return (f'<text x="{x:g}" y="{y:g}" class="{name}" font-size="{size}" text-anchor="{anchor}"'
            f' font-weight="{weight}">{escape(words)}</text>')


def picture(title, told, parts, height=HEIGHT):
    """The whole file: a title, what is told to those who can't see it, and the parts on a ground of their own."""
    head = [
        f'<svg xmlns="http://www.w3.org/2000/svg" viewBox="0 0 {WIDTH} {height}" width="{WIDTH}" height="{height}" role="img"'
        ' font-family="system-ui, -apple-system, \'Segoe UI\', \'DejaVu Sans\', sans-serif">',
        f"<title>{escape(title)}</title>",
        f"<desc>{escape(told)}</desc>",
        f"<style>{colours(LIGHT)}",
        f"@media (prefers-color-scheme: dark) {{ {colours(DARK)} }}",
        ".ring{stroke-width:2} .dashed{stroke-width:1.5;stroke-dasharray:4 3}</style>",
        rectangle(0.5, 0.5, WIDTH - 1, height - 1, "ground", 6),
        rectangle(0.5, 0.5, WIDTH - 1, height - 1, "frame-line", 6),
        text(16, 26, title, size=15, weight="600"),
    ]
    return "\n".join([*head, *parts, "</svg>", ""])
