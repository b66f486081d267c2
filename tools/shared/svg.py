"""An SVG page: shapes and texts, and labels that leave each other room."""

from xml.sax.saxutils import escape, quoteattr

WIDE = "mwMWGOQD@%&"
NARROW = "iljtfr.,:;'|!()[] "


def text_width(text, size):
    """About as wide as a sans serif text gets, in the wider ones."""
    return size * sum(0.9 if letter in WIDE else 0.4 if letter in NARROW else 0.64 for letter in text)


class Page:
    """Shapes in the order in which they are drawn; the boxes of its texts, so that no two lie on each other."""

    def __init__(self):
        self.parts, self.boxes, self.right, self.bottom = [], [], 0, 0

    def add(self, name, inside=None, **attributes):
        shown = "".join(f" {key.rstrip('_').replace('_', '-')}={quoteattr(number(value))}" for key, value in attributes.items())
        self.parts.append(f"<{name}{shown}/>" if inside is None else f"<{name}{shown}>{inside}</{name}>")

    def line(self, x1, y1, x2, y2, stroke, width=1, **more):
        self.add("line", x1=x1, y1=y1, x2=x2, y2=y2, stroke=stroke, stroke_width=width, **more)

    def path(self, points, stroke, width, **more):
        self.add("polyline", points=" ".join(f"{number(x)},{number(y)}" for x, y in points), fill="none", stroke=stroke,
                 stroke_width=width, **more)

    def rect(self, x, y, width, height, fill, title=None, **more):
        self.grow(x + width, y + height)
        inside = None if title is None else f"<title>{escape(title)}</title>"
        self.add("rect", inside, x=x, y=y, width=width, height=height, fill=fill, **more)

    def grow(self, right, bottom):
        self.right, self.bottom = max(self.right, right), max(self.bottom, bottom)

    def text(self, text, x, y, size=11, anchor="start", **more):
        """A text with its left end, middle or right end at x, on the line y."""
        box = self.box(text, x, y, size, anchor, **more)
        self.boxes.append(box)
        self.grow(box[2], box[3])
        self.add("text", escape(text), x=x, y=y, font_size=size, **({} if anchor == "start" else {"text_anchor": anchor}), **more)

    @staticmethod
    def box(text, x, y, size, anchor, font_weight="normal", **_):
        width = text_width(text, size) * (1.12 if font_weight == "bold" else 1)
        left = x - {"start": 0, "middle": width / 2, "end": width}[anchor]
        return left, y - size * 0.8, left + width, y + size * 0.25

    def label(self, text, places, size=11, least=0, **more):
        """The text at the first of these places (x, y, anchor) where no other text lies; whether there is one."""
        for x, y, anchor in places:
            box = self.box(text, x, y, size, anchor, **more)
            if box[0] >= least and not any(box[0] < it[2] and it[0] < box[2] and box[1] < it[3] and it[1] < box[3] for it in self.boxes):
                self.text(text, x, y, size, anchor, **more)
                return True
        return False

    def keep_free(self, left, top, right, bottom):
        self.boxes.append((left, top, right, bottom))

    def whole(self, title, margin=12):
        width, height = number(self.right + margin), number(self.bottom + margin)
        return "\n".join([f'<svg xmlns="http://www.w3.org/2000/svg" width="{width}" height="{height}" viewBox="0 0 {width} {height}" '
                          'font-family="DejaVu Sans, Verdana, Arial, sans-serif">', f"<title>{escape(title)}</title>",
                          f'<rect x="0" y="0" width="{width}" height="{height}" fill="#ffffff"/>', *self.parts, "</svg>"])


def number(value):
    """A number with at most one digit behind the point; anything else as it is."""
    return f"{value:.1f}".removesuffix(".0") if isinstance(value, float) else str(value)
