"""Line pictures as SVG text: axes with units, lines, dots, areas and a legend."""

WIDTH, HEIGHT = 760, 430
LEFT, RIGHT, TOP, BOTTOM = 74, 20, 44, 56

BLACK, BLUE, ORANGE, GREEN = "#222222", "#1f6fb4", "#d9661f", "#2f8f4e"
WATER, EARTH = "#a9d3ee", "#8a7156"


class Picture:
    """A scale along x and y, each (least, greatest, step between ticks), and what is drawn in it."""

    def __init__(self, title, x_label, y_label, x_scale, y_scale):
        self.title, self.x_label, self.y_label = title, x_label, y_label
        self.x_scale, self.y_scale = x_scale, y_scale
        self.drawn, self.keys = [], []

    def _x(self, x):
        least, greatest, _ = self.x_scale
        return LEFT + (x - least) / (greatest - least) * (WIDTH - LEFT - RIGHT)

    def _y(self, y):
        least, greatest, _ = self.y_scale
        return HEIGHT - BOTTOM - (y - least) / (greatest - least) * (HEIGHT - TOP - BOTTOM)

    def _places(self, points):
        return " ".join("%.1f,%.1f" % (self._x(x), self._y(y)) for x, y in points)

    def line(self, points, colour, name=None, width=1.6, dash=None):
        style = 'fill="none" stroke="%s" stroke-width="%s"' % (colour, width)
        style += ' stroke-dasharray="%s"' % dash if dash else ""
        self.drawn.append('<polyline %s points="%s"/>' % (style, self._places(points)))
        if name:
            self.keys.append((name, '<line x1="0" y1="0" x2="30" y2="0" %s/>' % style))

    def dots(self, points, colour, name=None, radius=3.2):
        style = 'fill="white" stroke="%s" stroke-width="1.4"' % colour
        for x, y in points:
            self.drawn.append('<circle cx="%.1f" cy="%.1f" r="%s" %s/>'
                              % (self._x(x), self._y(y), radius, style))
        if name:
            self.keys.append((name, '<circle cx="15" cy="0" r="%s" %s/>' % (radius, style)))

    def area(self, points, colour, name):
        """Filled from the points down to the foot of the picture."""
        foot = self.y_scale[0]
        closed = [(points[0][0], foot)] + points + [(points[-1][0], foot)]
        self.drawn.append('<polygon fill="%s" points="%s"/>' % (colour, self._places(closed)))
        self.keys.append((name, '<rect x="4" y="-6" width="22" height="12" fill="%s"/>' % colour))

    def _ticks(self, scale):
        least, greatest, step = scale
        return [least + k * step for k in range(round((greatest - least) / step) + 1)]

    def _axes(self):
        foot, right = HEIGHT - BOTTOM, WIDTH - RIGHT
        parts = []
        for x in self._ticks(self.x_scale):
            parts.append('<line class="grid" x1="%.1f" y1="%d" x2="%.1f" y2="%d"/>'
                         % (self._x(x), TOP, self._x(x), foot))
            parts.append('<text x="%.1f" y="%d" text-anchor="middle">%s</text>'
                         % (self._x(x), foot + 19, number(x)))
        for y in self._ticks(self.y_scale):
            parts.append('<line class="grid" x1="%d" y1="%.1f" x2="%d" y2="%.1f"/>'
                         % (LEFT, self._y(y), right, self._y(y)))
            parts.append('<text x="%d" y="%.1f" text-anchor="end">%s</text>'
                         % (LEFT - 8, self._y(y) + 5, number(y)))
        middle = (TOP + foot) / 2
        parts.append('<text x="%.1f" y="%d" text-anchor="middle">%s</text>'
                     % ((LEFT + right) / 2, HEIGHT - 12, self.x_label))
        parts.append('<text x="20" y="%.1f" text-anchor="middle" transform="rotate(-90 20 %.1f)">%s</text>'
                     % (middle, middle, self.y_label))
        return parts

    def _legend(self, corner):
        """At the top, "right" or "middle", or at the right of the "foot"."""
        wide, high = 50 + max(7.6 * len(name) for name, _ in self.keys), 22 * len(self.keys) + 8
        x = (LEFT + WIDTH - RIGHT - wide) / 2 if corner == "middle" else WIDTH - RIGHT - wide - 8
        top = HEIGHT - BOTTOM - high - 6 if corner == "foot" else TOP + 6
        parts = ['<rect x="%.1f" y="%d" width="%.1f" height="%d" fill="white" fill-opacity="0.85"/>'
                 % (x, top, wide, high)]
        for k, (name, sign) in enumerate(self.keys):
            y = top + 15 + 22 * k
            parts.append('<g transform="translate(%.1f %d)">%s</g>' % (x + 6, y, sign))
            parts.append('<text x="%.1f" y="%d">%s</text>' % (x + 44, y + 5, name))
        return parts

    def svg(self, corner="right"):
        head = ['<svg xmlns="http://www.w3.org/2000/svg" viewBox="0 0 %d %d" font-family="sans-serif" '
                'font-size="14">' % (WIDTH, HEIGHT),
                '<style>.grid { stroke: #dddddd }</style>',
                '<title>%s</title>' % self.title,
                '<rect width="%d" height="%d" fill="white"/>' % (WIDTH, HEIGHT),
                '<text x="%d" y="26" font-size="16" font-weight="bold">%s</text>' % (LEFT, self.title)]
        frame = ('<rect x="%d" y="%d" width="%d" height="%d" fill="none" stroke="#555555"/>'
                 % (LEFT, TOP, WIDTH - LEFT - RIGHT, HEIGHT - TOP - BOTTOM))
        return "\n".join(head + self._axes() + self.drawn + [frame] + self._legend(corner) + ["</svg>", ""])


def number(x):
    """A tick's number without a tail of noughts, and never -0."""
    text = ("%.3f" % x).rstrip("0").rstrip(".")
    return "0" if text in ("-0", "") else text.replace("-", "\u2212")
