"""A plain, slow reading of scripts: what `linkrun` is to print, by fractions without bound.

It shares nothing with the library. It goes event by event, copies all before each call, and takes rates by filling.
`judge` compares a run of the program with it.
"""
import copy
import re
from fractions import Fraction

LAST = 2 ** 64 - 1
SECOND = 10 ** 9
LINE = 256

NUMBER = re.compile(rb"0|[1-9][0-9]*")
U64, U128, LENGTH, BIT = 2 ** 64 - 1, 2 ** 128 - 1, 67108864, 1
MAYBE = "-"  # a cap, which may be none
WEIGHT = range(1, 2 ** 64)
COLUMNS = {
    b"flow": [U64, U64, U64, BIT],
    b"egress": [U64, (U128, MAYBE)],
    b"ingress": [U64, (U128, MAYBE)],
    b"link": [U64, U64, (U128, MAYBE)],
    b"rates": [],
    b"hop": [U64, U64],
    b"cap": [U64, (U128, MAYBE)],
    b"weight": [U64, WEIGHT],
    b"routes": [],
    b"limit": [U64, U64, (U64, MAYBE), (U64, MAYBE)],
    b"limitlink": [U64, U64, U64, (U64, MAYBE)],
    b"enqueue": [U64, U64, U64, U64, LENGTH, U64, BIT],
    b"advance": [U64],
    b"next": [],
}
TEXTS = {1: "out of memory", 2: "number too large", 3: "moment too late", 4: "flow ids used up"}
NO_MEMORY = b"refused 1 out of memory"


class Refused(Exception):
    """A call that is refused, by its number."""


class Wrong(Exception):
    """A run that is not as it should be."""


def word(text, column):
    most, may_lack = column if isinstance(column, tuple) else (column, None)
    if may_lack and text == b"-":
        return None
    least, most = (most[0], most[-1]) if isinstance(most, range) else (0, most)
    if not NUMBER.fullmatch(text) or len(text) > 40 or not least <= int(text) <= most:
        raise ValueError
    return int(text)


def command(line):
    """The words of a command, or ValueError where the line is bad."""
    name, *words = line.split(b" ")
    columns = COLUMNS.get(name)
    if columns is None or len(words) != len(columns) or len(line) > LINE:
        raise ValueError
    return name.decode(), [word(text, column) for text, column in zip(words, columns)]


def fair(users, caps, weights=None):
    """The max-min fair rates: `users` has the sides of each flow, `caps` the caps of the sides. None is unlimited. Where
    flows have weights, each counts as often."""
    weights = weights or [1] * len(users)
    rates = [None] * len(users)
    left = {side: Fraction(cap) for side, cap in caps.items()}
    rising = {flow for flow, sides in enumerate(users) if sides}
    while rising:
        counts = {}
        for flow in rising:
            for side in users[flow]:
                counts[side] = counts.get(side, 0) + weights[flow]
        shares = {side: left[side] / count for side, count in counts.items()}
        level = min(shares.values())
        full = {flow for flow in rising if any(shares[side] == level for side in users[flow])}
        for flow in full:
            rates[flow] = level * weights[flow]
            for side in users[flow]:
                left[side] -= rates[flow]
        rising -= full
    return rates


def rates_under(caps, flows):
    """The fair rates of flows, each an origin, a recipient, and whether it is delivered."""
    users = []
    for origin, recipient, delivered in flows:
        sides = [("egress", origin), ("link", origin, recipient)]
        sides += [("ingress", recipient)] * delivered
        users.append([side for side in sides if caps.get(side) is not None])
    return fair(users, {side: cap for side, cap in caps.items() if cap is not None})


def rates_over(caps, routes, weights):
    """The fair rates of flows over routes, which are sets of links, by their weights."""
    users = [[link for link in route if caps.get(link) is not None] for route in routes]
    for link in {link for route in users for link in route}:
        if sum(weight for route, weight in zip(users, weights) if link in route) > U64:
            raise Refused(2)
    return fair(users, {link: cap for link, cap in caps.items() if cap is not None}, weights)


class Message:
    def __init__(self, origin, recipient, channel, length, latency, wanted):
        self.pair, self.channel, self.length = (origin, recipient), channel, length
        self.latency, self.wanted = latency, wanted

    @property
    def delivered(self):
        return self.wanted and self.pair[0] != self.pair[1]

    def line(self, at):
        return "done %d %d %d %d %s" % (*self.pair, self.channel, self.length, "-" if at is None else at)


class Flight:
    def __init__(self, message, moment):
        self.message, self.left, self.rate, self.updated = message, Fraction(message.length), Fraction(0), moment


class Scheduler:
    """Messages under caps, event by event. A call answers the lines of what is done, or raises Refused."""

    def __init__(self):
        self.caps, self.is_limited, self.ids = {}, False, 0
        self.flights, self.waiting, self.arrivals = [], {}, {}
        self.finish = self.start = None

    def next(self):
        return min((moment for moment in (self.finish, self.start) if moment is not None), default=None)

    def is_idle(self, pair):
        return all(flight.message.pair != pair for flight in self.flights)

    def ready(self, pair, now):
        """When the first waiting message of a pair may start, from `now` on."""
        return max(now, self.arrivals.get(pair, 0) - self.waiting[pair][0].latency)

    def idle_pairs(self):
        return [pair for pair in sorted(self.waiting) if self.waiting[pair] and self.is_idle(pair)]

    def drain(self, now):
        """Brings all that is in flight to `now`. Answers the messages that are done."""
        for flight in self.flights:
            flight.left = max(Fraction(0), flight.left - flight.rate * max(0, now - flight.updated) / SECOND)
            flight.updated = now
        limits = rates_under(self.caps, [(*flight.message.pair, flight.message.delivered) for flight in self.flights])
        gone = [flight for flight, rate in zip(self.flights, limits) if rate is None or flight.left == 0]
        self.flights = [flight for flight in self.flights if flight not in gone]
        rates = rates_under(self.caps, [(*flight.message.pair, flight.message.delivered) for flight in self.flights])
        self.finish = None
        for flight, rate in zip(self.flights, rates):
            flight.rate = rate
            if rate > 0:
                moment = now + -(-flight.left * SECOND // rate)
                if moment <= LAST and (self.finish is None or moment < self.finish):
                    self.finish = moment
        return [flight.message for flight in gone]

    def look(self, now):
        self.start = min((self.ready(pair, now) for pair in self.idle_pairs()), default=None)

    def launch(self, pair, now):
        """Starts the first waiting message of a pair, if it may. Answers the messages that are done then."""
        if not self.waiting.get(pair) or not self.is_idle(pair) or self.ready(pair, now) > now:
            return []
        if self.ids >= LAST:
            raise Refused(4)
        self.ids += 1
        self.flights.append(Flight(self.waiting[pair].pop(0), now))
        return self.drain(now)

    def arrive(self, message, moment):
        self.arrivals[message.pair] = max(moment, self.arrivals.get(message.pair, 0))

    def complete(self, queue, now, lines):
        while queue:
            message = queue.pop(0)
            at = now + message.latency if message.delivered else None
            if at is not None and at > LAST:
                raise Refused(3)
            self.arrive(message, now if at is None else at)
            lines.append(message.line(at))
            queue += self.launch(message.pair, now)
        self.look(now)

    def wake(self, now, lines):
        for pair in [pair for pair in self.idle_pairs() if self.ready(pair, now) <= now]:
            self.complete(self.launch(pair, now), now, lines)
        self.look(now)

    def cap(self, now, caps, lines):
        self.caps.update(caps)
        self.is_limited = True
        if self.flights:
            self.complete(self.drain(now), now, lines)
        else:
            self.look(now)

    def send(self, now, message, lines):
        if self.is_limited:
            self.waiting.setdefault(message.pair, []).append(message)
            self.complete(self.launch(message.pair, now), now, lines)
            return
        at = None
        if message.wanted:
            if now + message.latency > LAST:
                raise Refused(3)
            at = max(now + message.latency, self.arrivals.get(message.pair, 0))
        self.arrive(message, now if at is None else at)
        lines.append(message.line(at))

    def advance(self, now, lines):
        while self.next() is not None and self.next() <= now:
            moment = self.next()
            if moment == self.finish:
                self.finish = None
                self.complete(self.drain(moment), moment, lines)
            else:
                self.start = None
                self.wake(moment, lines)
        self.wake(now, lines)


class Script:
    """What was said so far."""

    def __init__(self):
        self.flows, self.caps, self.scheduler = [], {}, Scheduler()
        self.routes, self.link_caps, self.weights = {}, {}, {}

    def rates(self):
        return self.rated([flow[0] for flow in self.flows], rates_under(self.caps, [flow[1:] for flow in self.flows]))

    def rates_of_routes(self):
        weights = [self.weights.get(flow, 1) for flow in self.routes]
        return self.rated(self.routes, rates_over(self.link_caps, list(self.routes.values()), weights))

    def rated(self, flows, rates):
        """The lines of these rates, of which the last of each flow counts."""
        if any(rate is not None and max(rate.numerator, rate.denominator) > U128 for rate in rates):
            raise Refused(2)
        by_id = dict(zip(flows, rates))
        return ["rate %d %s" % (flow, "unlimited" if by_id[flow] is None else
                                "%d/%d" % (by_id[flow].numerator, by_id[flow].denominator)) for flow in sorted(by_id)]

    def call(self, name, words):
        """Makes a call of the scheduler, on a copy that is kept where the call is not refused."""
        scheduler, lines = copy.deepcopy(self.scheduler), []
        if name == "limit":
            now, peer, egress, ingress = words
            scheduler.cap(now, {("egress", peer): egress, ("ingress", peer): ingress}, lines)
        elif name == "limitlink":
            now, origin, recipient, cap = words
            scheduler.cap(now, {("link", origin, recipient): cap}, lines)
        elif name == "enqueue":
            now, origin, recipient, channel, length, latency, wanted = words
            scheduler.send(now, Message(origin, recipient, channel, length, latency, wanted == 1), lines)
        else:
            scheduler.advance(words[0], lines)
        self.scheduler = scheduler
        return lines

    def answer(self, name, words):
        if name == "flow":
            self.flows.append((*words[:3], words[3] == 1))
        elif name in ("egress", "ingress", "link"):
            self.caps[(name, *words[:-1])] = words[-1]
        elif name == "rates":
            return self.rates()
        elif name == "hop":
            self.routes.setdefault(words[0], set()).add(words[1])
        elif name == "cap":
            self.link_caps[words[0]] = words[1]
        elif name == "weight":
            self.weights[words[0]] = words[1]
        elif name == "routes":
            return self.rates_of_routes()
        elif name == "next":
            moment = self.scheduler.next()
            return ["next %s" % ("-" if moment is None else moment)]
        else:
            return self.call(name, words)
        return []

    def do(self, name, words):
        """The lines that are printed."""
        try:
            return [line.encode() for line in self.answer(name, words)]
        except Refused as refused:
            number = refused.args[0]
            return [b"refused %d %s" % (number, TEXTS[number].encode())]


def judge(script, status, printed, said, refusals=0):
    """Compares a run with what is to be printed, where so many commands may be refused for want of memory. A command
    that is refused counts as not there. Answers how many were."""
    if refusals and status == 1 and said == b"out of memory\n":
        if printed:
            raise Wrong("no memory outside a command, and yet something is printed")
        return 1
    left = printed.split(b"\n")
    if left.pop() != b"":
        raise Wrong("the last line has no end")
    said = without_count(said, left.count(NO_MEMORY))
    left.reverse()
    return follow(Script(), list(enumerate(script.split(b"\n"), 1)), left, (status, said), refusals)


def without_count(said, refused):
    """What is said but for its last line, which says how many commands were refused for want of memory."""
    count = b"linkrun: %d refused for want of memory\n" % refused
    if refused and not said.endswith(count):
        raise Wrong("%d commands are refused for want of memory, and %r is said" % (refused, said))
    return said[:-len(count)] if refused else said


def is_bad_at(number, said):
    """Whether that is said of the bad line of that number: a line, and then a line of why it is bad."""
    return re.fullmatch(rb"bad line %d\ncolumn [1-9][0-9]{0,2}: [ -~]{1,389}\n" % number, said) is not None


def follow(state, lines, left, end, refusals):
    """The same from some line on, with what is left of the output, its last line first."""
    for place, (number, line) in enumerate(lines):
        if line == b"":
            continue
        try:
            name, words = command(line)
        except ValueError:
            if end[0] != 2 or not is_bad_at(number, end[1]) or left:
                raise Wrong("line %d is bad, and the run ends with %d %r" % (number, *end)) from None
            return 0
        if refusals and name != "next" and left and left[-1] == NO_MEMORY:
            # This line is the refused one, or it prints nothing, and a later line is.
            try:
                return 1 + follow(copy.deepcopy(state), lines[place + 1:], left[:-1], end, refusals - 1)
            except Wrong:
                pass
        for wanted in state.do(name, words):
            got = left.pop() if left else None
            if got != wanted:
                raise Wrong("line %d, %r: %r is to be printed, and %r is" % (number, line, wanted, got))
    if left or end != (0, b""):
        raise Wrong("more is printed, or the run ends with %d %r" % end)
    return 0
