"""The space-time picture of a script, as one SVG with real text, for light and dark paper."""
from xml.sax.saxutils import escape, quoteattr

from .knowledge import outcome, stamp_text
from .layout import CHANNEL, DOT, LEADING, LEFT, MARGIN, STEP, Layout, cut, width_of
from .script import escaped

# Each role's colour on light and on dark paper. The colours of keys come round again past the sixth.
COLOURS = {
    "paper": ("#ffffff", "#0d1117"),
    "lane": ("#f3f5f8", "#171d26"),
    "ink": ("#1f2328", "#e6edf3"),
    "faint": ("#59636e", "#9aa5b1"),
    "loser": ("#646d77", "#8b949e"),
    "bad": ("#b3261e", "#ff8178"),
    "floor": ("#7a5200", "#e3b341"),
    "key0": ("#0a58b0", "#6cb6ff"),
    "key1": ("#a63c06", "#ff9a5c"),
    "key2": ("#14703a", "#56d37f"),
    "key3": ("#8a2f9c", "#dd9bf0"),
    "key4": ("#00696f", "#4fd0d8"),
    "key5": ("#a8215f", "#ff8fc0"),
}
KEYS = 6
STYLE = """text{font:12px ui-monospace,'DejaVu Sans Mono',Menlo,Consolas,'Liberation Mono',monospace;white-space:pre}
.name{font-weight:bold}
path,line,.hollow{stroke-width:1.5}
path,line{fill:none}
.thin{stroke-width:1}
.late{stroke-dasharray:8 4}
.again{stroke-dasharray:2 3}
.untaken{stroke-dasharray:4 3}
.gone{stroke-dasharray:3 5}"""
# What a legend says of each kind that occurs, in this order.
WORDS = {
    "loser": "a write, delete or flush that loses in the end",
    "parcel": "a parcel, from its send to its take",
    "parcel late": "late: taken after a parcel that was sent later",
    "parcel again": "again: the same site has taken it before",
    "parcel refused": "a refused take: nothing changes",
    "parcel untaken": "lost: no site takes it",
    "refused": "a refused send: there is no parcel",
    "retired": "from here on this site holds another for gone",
    "gone": "the line of a site that another holds for gone",
}
ROW, SAMPLE = 20, 38
CROSS = "l10 10m0 -10l-10 10"


def rules(body):
    """The colours of each role that occurs, on light and on dark paper."""
    used = [(kind, role, name) for role in COLOURS for kind, name in (("f", "fill"), ("s", "stroke")) if f"{kind}-{role}" in body]
    light, dark = ("".join(f".{kind}-{role}{{{name}:{COLOURS[role][at]}}}" for kind, role, name in used) for at in (0, 1))
    return f"{STYLE}\n{light}\n@media (prefers-color-scheme:dark){{{dark}}}"


def tag(name, kind="", inside=None, **words):
    """An element of a class. What is inside is markup."""
    spelled = "".join(f" {key.replace('_', '-')}={quoteattr(str(value))}" for key, value in {"class": kind, **words}.items() if value != "")
    return f"<{name}{spelled}/>" if inside is None else f"<{name}{spelled}>{inside}</{name}>"


def text_at(x, y, text, kind):
    return tag("text", kind, escape(text), x=x, y=y)


def path(points, kind):
    return tag("path", kind, d="M" + "L".join(f"{x} {y}" for x, y in points))


def dot(x, y, role):
    """An operation that wins is full and in its colour, one that loses hollow and grey. Any other event is small."""
    if role == "ink":
        return tag("circle", "dot f-ink", cx=x, cy=y, r=3)
    return tag("circle", "dot hollow f-paper s-loser" if role == "loser" else f"dot f-{role}", cx=x, cy=y, r=DOT)


class Picture:
    """Draws what a layout has placed."""

    def __init__(self, history, title):
        self.history, self.title, self.out, self.seen = history, title, [], set()
        self.winners, self.floor = outcome(history)
        self.key_roles = {key: f"key{place % KEYS}" for place, key in enumerate(self.winners)}
        self.at = Layout(history, self.roles())
        longest = max(map(width_of, [*WORDS.values(), *self.winner_words().values()]))
        self.right = max(self.at.right, 2 * MARGIN + SAMPLE + longest)

    def roles(self):
        """The colour of each operation by its stamp: its key's where it wins, and else grey. Touches have none."""
        found = {}
        for one in (one for event in self.history.events for deed in event.deeds for one in deed.issued):
            is_floor = one == self.floor
            if one.kind != "touch":
                found[one.stamp] = "floor" if is_floor else self.key_roles[one.key] if self.winners.get(one.key) == one else "loser"
        return found

    def winner_words(self):
        """What became of each key, by key; of the flush that counts where no key ends by it."""
        found = {key: f"{cut(escaped(key))}: the {one.kind} {stamp_text(one)} wins" for key, one in self.winners.items()}
        if self.floor and self.floor not in self.winners.values():
            found[None] = f"the flush {stamp_text(self.floor)}: what is older counts for nothing"
        return found

    def draw_moments(self):
        y = MARGIN + LEADING
        self.out.append(text_at(MARGIN, y - 4, "at", "name f-faint"))
        self.out.append(tag("line", "axis thin s-faint", x1=LEFT, y1=y + 3, x2=self.right - MARGIN, y2=y + 3))
        for x, moment in self.at.moments:
            self.out.append(tag("line", "tick thin s-faint", x1=x, y1=y - 2, x2=x, y2=y + 8))
            self.out.append(text_at(x, y - 4, str(moment), "moment f-faint"))

    def draw_sites(self):
        for site, (top, line, bottom) in self.at.lanes.items():
            end = self.right - MARGIN
            turn = min(self.at.gone_from.get(site, end), end - MARGIN) if site in self.at.gone_from else end
            self.out.append(tag("rect", "lane f-lane", x=6, y=top, width=self.right - 12, height=bottom - top, rx=6))
            self.out.append(text_at(MARGIN, line + 4, f"site {site}", "name f-ink"))
            self.out.append(tag("line", "site s-ink", x1=LEFT, y1=line, x2=turn, y2=line))
            if turn < end:
                self.seen.add("gone")
                self.out.append(tag("line", "gone s-ink", x1=turn, y1=line, x2=end, y2=line))

    def add_arrow(self, kind, told, parts):
        self.seen.add(kind)
        self.out.append(tag("g", "arrow", tag("title", "", escape(told)) + "".join(parts)))

    def draw_arrow(self, take):
        """An arrow to a take. A refused one ends at a bar."""
        (points, step), manner, parcel = self.at.route(take), take.event.manner, take.parcel
        kind, (x, y) = f"parcel {manner}".strip(), points[-1]
        role = "bad" if manner == "refused" else "ink"
        if manner == "refused":
            head = path([(x - 6, y - 2 * step), (x + 6, y - 2 * step)], "bar s-bad")
        else:
            head = tag("path", "head f-ink", d=f"M{x} {y}L{x - 4} {y - 8 * step}L{x + 4} {y - 8 * step}Z")
        points[-1] = (x, y - (2 if manner == "refused" else 6) * step)
        told = f"parcel {parcel.number} from site {parcel.sender} at site {take.site}" + (f", {manner}" if manner else "")
        self.add_arrow(kind, told, [path(points, f"{kind} s-{role}"), head])

    def draw_untaken(self, send):
        """A parcel that no line takes: a short dashed arrow towards its addressee, with a cross."""
        step, (top, line, bottom) = 1 if send.parcel.to > send.site else -1, self.at.lanes[send.site]
        edge = bottom if step == 1 else top
        x, y = send.x + 12, edge + step * (CHANNEL // 2)
        told = f"parcel {send.parcel.number} from site {send.site} to site {send.parcel.to} is lost"
        shaft = path([(send.x, line + step * DOT), (send.x, edge), (x, y)], "parcel untaken s-ink")
        self.add_arrow("parcel untaken", told, [shaft, tag("path", "cross s-bad", d=f"M{x - 5} {y - 5}{CROSS}")])

    def mark(self, it, y):
        """What an event has on its site's line."""
        if it.event.gone:
            self.seen.add("retired")
            return tag("rect", "retired hollow f-paper s-ink", x=it.x - 5, y=y - 5, width=10, height=10) + dot(it.x, y, "ink")
        if it.is_send and not it.parcel:
            self.seen.add("refused")
            return tag("path", "refused s-bad", d=f"M{it.x - 5} {y - 5}{CROSS}")
        self.seen.update(it.dots)
        return "".join(dot(it.x + STEP * place, y, role) for place, role in enumerate(it.dots))

    def draw_event(self, it):
        y, left = self.at.lanes[it.site][1], it.x + DOT + 3
        parts = [tag("title", "", escape(it.told())), self.mark(it, y)]
        for place, (text, role) in enumerate(reversed(it.asked)):
            parts.insert(2, text_at(left, y - 9 - LEADING * place, text, f"asked f-{role}"))
        for place, (text, role) in enumerate(it.answers):
            parts.append(text_at(left, y + 18 + LEADING * place, text, f"answer f-{role}"))
        self.out.append(tag("g", "event", "".join(parts), data_line=it.event.line.number))

    def sample(self, kind, x, y):
        """What a word of the legend stands for."""
        if kind in COLOURS:
            return dot(x + 13, y, kind)
        if kind == "retired":
            return tag("rect", "hollow f-paper s-ink", x=x + 8, y=y - 5, width=10, height=10) + dot(x + 13, y, "ink")
        if kind == "refused":
            return tag("path", "s-bad", d=f"M{x + 8} {y - 5}{CROSS}")
        role, manner = "bad" if kind == "parcel refused" else "ink", kind.removeprefix("parcel").strip()
        line = path([(x, y), (x + 26, y)], f"{manner} s-{role}".strip())
        if manner == "refused":
            return line + path([(x + 26, y - 6), (x + 26, y + 6)], "s-bad")
        if manner == "untaken":
            return line + tag("path", "s-bad", d=f"M{x + 21} {y - 5}{CROSS}")
        return line + ("" if kind == "gone" else tag("path", "f-ink", d=f"M{x + 30} {y}l-8 -4v8Z"))

    def draw_legend(self):
        """The words of what occurs, as many beside each other as there is room for. Gives the picture's height."""
        words = []
        for key, it in self.winner_words().items():
            is_flush = self.winners.get(key, self.floor).kind == "flush"
            words.append(("floor" if is_flush else self.key_roles[key], it))
        words += [(kind, it) for kind, it in WORDS.items() if kind in self.seen]
        width = SAMPLE + 2 * MARGIN + max((width_of(it) for _, it in words), default=0)
        rows = -(-len(words) // max(1, self.right // width))
        for place, (kind, it) in enumerate(words):
            x, y = MARGIN + width * (place // rows), self.at.bottom + 26 + ROW * (place % rows)
            self.out.append(tag("g", "legend", self.sample(kind, x, y - 4) + text_at(x + SAMPLE, y, it, "f-ink")))
        return self.at.bottom + 20 + ROW * rows

    def body(self):
        self.draw_moments()
        self.draw_sites()
        taken = {it.parcel.number for it in self.at.takes}
        for take in self.at.takes:
            if take.site != take.parcel.sender:
                self.draw_arrow(take)
        for number, send in self.at.sends.items():
            if number not in taken:
                self.draw_untaken(send)
        for it in self.at.placed:
            self.draw_event(it)

    def svg(self):
        """The picture's text."""
        self.body()
        height, count = self.draw_legend(), len(self.at.sites)
        told = [f"{count} site{'s' * (count != 1)}", *(it.told() for it in self.at.placed), *self.winner_words().values()]
        size = {"width": self.right, "height": height, "viewBox": f"0 0 {self.right} {height}"}
        body = "\n".join([tag("rect", "f-paper", width=self.right, height=height), *self.out])
        head = [tag("title", "", escape(self.title)), tag("desc", "", escape(". ".join(told) + ".")), tag("style", "", rules(body))]
        return tag("svg", "", "\n".join(["", *head, body, ""]), xmlns="http://www.w3.org/2000/svg", role="img", **size) + "\n"
