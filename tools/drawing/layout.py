"""Where the events of a script stand in its picture, so that no text meets another text, a dot or an arrow.

Each site is a lane: what was asked stands above its line and the answer below it, both right of the event's dot. An event stands right of
all that it depends on: those before it at its site, the send of the parcel that it takes, and all events before the last `at`. Events that
don't depend on each other may stand above each other. An arrow is steep in the lanes of its two sites, straight between lanes, and upright
again in a lane that it passes, at a place that is kept free of text.
"""
import math

LETTER, LEADING, LONGEST = 7.3, 15, 26
LEFT, MARGIN = 62, 14
# From an event's text to the next dot, between the two ends of an arrow, and between texts and an arrow that passes.
GAP, SLOPE, CLEAR = 12, 34, 6
DOT, STEP = 5, 13
CHANNEL, NO_CHANNEL = 46, 10


def cut(text):
    return text if len(text) <= LONGEST else text[: LONGEST - 2] + ".."


def width_of(text):
    """The width of a text, in the widest of the fonts that the style names."""
    return math.ceil(len(text) * LETTER)


class Placed:
    """An event with its texts, its dots and its place."""

    def __init__(self, event, roles):
        self.event, self.site, self.parcel, self.x = event, event.line.site, event.parcel, 0
        self.is_send, self.is_take = event.line.word == "send", event.line.word == "take"
        self.asked, self.answers, self.dots = [], [], []
        for deed in event.deeds:
            issued = [roles[one.stamp] for one in deed.issued if one.stamp in roles]
            self.asked.append((cut(deed.asked), issued[0] if issued else "ink"))
            for text, shown in deed.answers:
                role = "bad" if event.manner == "refused" else roles.get(shown and shown.stamp, "ink")
                self.answers.append((cut(text), role))
            self.dots += issued
        self.dots = self.dots or ["ink"]

    def width(self):
        words = max(width_of(text) for text, _ in [*self.asked, *self.answers])
        return max(words + DOT + 3, STEP * len(self.dots))

    def told(self):
        """The event in one line."""
        deeds = ["; ".join([deed.asked, *[text for text, _ in deed.answers]]) for deed in self.event.deeds]
        return f"line {self.event.line.number}, site {self.site}: {', '.join(deeds)}"


class Layout:
    """The places of all events, moments, lanes and arrows."""

    def __init__(self, history, roles):
        self.sites = sorted(history.sites)
        self.blocks = {site: [] for site in self.sites}
        self.free = dict.fromkeys(self.sites, LEFT + DOT + 3)
        self.placed, self.moments, self.sends, self.passes, self.gone_from = [], [], {}, {}, {}
        moments = list(history.moments)
        if not moments or moments[0][0] > 0:
            moments.insert(0, (0, 1))
        for place, event in enumerate([*history.events, None]):
            while moments and moments[0][0] <= place:
                self.set_moment(moments.pop(0)[1])
            if event:
                self.place(Placed(event, roles))
        self.takes = [it for it in self.placed if it.is_take]
        self.right = max([*self.free.values(), *(x + width_of(str(moment)) for x, moment in self.moments)], default=LEFT) + MARGIN
        self.set_lanes()

    def set_moment(self, moment):
        """A moment stands right of all that was before, and left of all that comes."""
        x = max(self.free.values(), default=LEFT + DOT + 3) - DOT - 3
        if self.moments:
            x = max(x, self.moments[-1][0] + width_of(str(self.moments[-1][1])) + GAP)
        self.moments.append((x, moment))
        self.free = dict.fromkeys(self.free, x + DOT + 3 + GAP // 2)

    def fit(self, site, low, left, right):
        """The least x from `low` on at which so much to its left and right is free in a lane. It is taken then."""
        x = low
        for start, end in sorted(self.blocks[site]):
            if x - left < end and start < x + right:
                x = end + left
        self.blocks[site].append((x - left, x + right))
        return x

    def place(self, it):
        low = self.free[it.site]
        if it.is_take:
            low = self.pass_lanes(it, self.sends[it.parcel.number], low)
        it.x = self.fit(it.site, low, DOT + 3, it.width())
        self.free[it.site] = it.x + it.width() + GAP
        if it.is_send and it.parcel:
            self.sends[it.parcel.number] = it
        for one in it.event.gone:
            x = max(it.x, self.free[one] - GAP)
            self.gone_from[one] = min(x, self.gone_from.get(one, x))
        self.placed.append(it)

    def pass_lanes(self, take, send, low):
        """Keeps places free in the lanes between two sites, about where a straight arrow would pass, and gives the least x of its end."""
        if take.site == send.site:
            return low
        step = 1 if take.site > send.site else -1
        between, x, found = range(send.site + step, take.site, step), send.x, []
        end = max(low, send.x + SLOPE * (1 + len(between)))
        for many, site in enumerate(between, 1):
            middle = send.x + (end - send.x) * many // (len(between) + 1)
            x = self.fit(site, max(x + SLOPE // 2, middle), CLEAR, CLEAR)
            found.append((site, x))
        self.passes[id(take)] = found
        return max(end, x + SLOPE // 2)

    def set_lanes(self):
        """The top, the line and the bottom of each lane."""
        self.lanes, y, self.bottom = {}, MARGIN + LEADING + 14, MARGIN + LEADING + 14
        spans = [sorted((self.sends[it.parcel.number].site, it.site)) for it in self.takes]
        spans += [sorted((it.site, it.parcel.to)) for it in self.sends.values()]
        for site in self.sites:
            own = [it for it in self.placed if it.site == site]
            line = y + 6 + LEADING * max((len(it.asked) for it in own), default=1)
            self.bottom = line + 10 + LEADING * max((len(it.answers) for it in own), default=1)
            self.lanes[site] = (y, line, self.bottom)
            y = self.bottom + (CHANNEL if any(low <= site < high for low, high in spans) else NO_CHANNEL)

    def route(self, take):
        """The points of an arrow to a take, and whether it goes down (1) or up (-1)."""
        send = self.sends[take.parcel.number]
        step = 1 if take.site > send.site else -1
        near, far = (2, 0) if step == 1 else (0, 2)
        points = [(send.x, self.lanes[send.site][1] + step * DOT), (send.x, self.lanes[send.site][near])]
        for site, x in self.passes[id(take)]:
            points += [(x, self.lanes[site][far]), (x, self.lanes[site][near])]
        return [*points, (take.x, self.lanes[take.site][far]), (take.x, self.lanes[take.site][1] - step * (DOT + 1))], step
