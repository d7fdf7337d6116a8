"""A small writer of SVG pictures: shapes and text on a white ground."""
from xml.sax.saxutils import escape

INK, GREY, FAINT = "#222222", "#666666", "#dddddd"


class Picture:
    def __init__(self, width, height):
        self.size = (width, height)
        self.parts = []
        self.rect(0, 0, width, height, "#ffffff")

    def rect(self, x, y, width, height, fill, stroke="none"):
        form = '<rect x="%.1f" y="%.1f" width="%.1f" height="%.1f" fill="%s" stroke="%s"/>'
        self.parts.append(form % (x, y, width, height, fill, stroke))

    def line(self, points, stroke=INK, width=1.0, arrow=False):
        """A line through points; with an arrow head at its end if asked."""
        path = " ".join("%.1f,%.1f" % point for point in points)
        head = ' marker-end="url(#head)"' if arrow else ""
        self.parts.append('<polyline points="%s" fill="none" stroke="%s" stroke-width="%.1f"%s/>' % (path, stroke, width, head))

    def dot(self, x, y, fill):
        self.parts.append('<circle cx="%.1f" cy="%.1f" r="3" fill="%s"/>' % (x, y, fill))

    def text(self, x, y, words, size=13, anchor="start", fill=INK, bold=False):
        weight = ' font-weight="bold"' if bold else ""
        form = '<text x="%.1f" y="%.1f" font-size="%d" text-anchor="%s" fill="%s"%s>%s</text>'
        self.parts.append(form % (x, y, size, anchor, fill, weight, escape(str(words))))

    def __str__(self):
        width, height = self.size
        size = 'viewBox="0 0 %d %d" width="%d" height="%d"' % (width, height, width, height)
        top = '<svg xmlns="http://www.w3.org/2000/svg" %s font-family="sans-serif">' % size
        head = '<defs><marker id="head" viewBox="0 0 8 8" refX="7" refY="4" markerWidth="7" markerHeight="7" orient="auto">' \
            '<path d="M0,0 L8,4 L0,8 z" fill="#b03a2e"/></marker></defs>'
        return "\n".join([top, head] + self.parts + ["</svg>", ""])
