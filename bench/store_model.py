"""The context store's history, as plainly as can be: what each line of a script prints, by docs/store.md.

For bench/compare.py, and written apart from the program. It remembers little and searches lists.
"""

SERVER = (256, 64, 16_777_216, 134_217_728)
OVERSIZE = 1_048_577
LAST_FAULT = 2**63 - 1
NOT_ALLOWED = ["not allowed"]


class Session:
    def __init__(self, seat):
        self.seat = seat
        self.request = self.attempt = self.version = 0
        self.held = []
        # None without a request, else the last own event, with its flight where it has one
        self.last = None
        self.flight = None

    def tell(self, last, flight=None):
        self.last, self.flight = last, flight

    def hold(self, iri, last, flight=None):
        self.held.append(iri)
        self.tell(last, flight)

    def end(self):
        self.held = []
        self.tell(None)


class Flight:
    def __init__(self, iri, kind):
        self.iri, self.kind, self.end = iri, kind, None


class Store:
    def __init__(self, limits=SERVER):
        self.contexts, self.held, self.most_events, self.most_bytes = limits
        self.events = self.version = self.bytes = self.opened = 0
        self.sessions = {}
        self.flights = []
        self.stored = {}
        self.turns = {}

    # ---- words

    def history_has_room(self):
        under_way = sum(s.last is not None for s in self.sessions.values())
        return self.events + 320 * (under_way + 1) + 256 <= self.most_events

    def archive_has_room(self):
        under_way = sum(f.end is None for f in self.flights)
        return self.bytes + 1_050_624 * (under_way + 1) <= self.most_bytes

    def flying(self, iri, kind):
        for number, flight in enumerate(self.flights, 1):
            if flight.end is None and (flight.iri, flight.kind) == (iri, kind):
                return number
        return None

    def places(self):
        return len(self.stored) + sum(f.end is None and f.kind == "lead" for f in self.flights)

    def holder(self, iri):
        return min((n for n, s in self.sessions.items() if iri in s.held), default=None)

    def may_go(self):
        return [iri for iri in self.stored if self.holder(iri) is None and self.flying(iri, "revise") is None]

    def was_stored(self, iri, version):
        return sum(turn <= version for turn in self.turns.get(iri, [])) % 2 == 1

    def end_of(self, session):
        return self.flights[session.flight - 1].end

    # ---- changes

    def next_version(self):
        self.version += 1
        return self.version

    def put_out(self, iri):
        self.events += 1
        del self.stored[iri]
        self.turns[iri].append(self.next_version())
        return f"evicted {iri} {self.version}"

    def refuse(self, session, line):
        self.events += 1
        session.end()
        return [line]

    def lead(self, iri, kind):
        self.events += 1
        self.flights.append(Flight(iri, kind))
        return len(self.flights)

    # ---- lines

    def run(self, line):
        """What the line prints: a list of lines."""
        verb, *words = line.split(" ")
        if verb == "open":
            return self.open(int(words[0]))
        if verb in ("give", "fail", "lapse"):
            number = int(words[0])
            if not 1 <= number <= len(self.flights) or self.flights[number - 1].end is not None:
                return NOT_ALLOWED
            return getattr(self, verb)(number, self.flights[number - 1], *words[1:])
        number = int(words[0])
        if number not in self.sessions:
            return NOT_ALLOWED
        return getattr(self, verb)(number, self.sessions[number], *words[1:])

    def open(self, seat):
        if seat >= 256 or any(s.seat == seat for s in self.sessions.values()):
            return NOT_ALLOWED
        if not self.history_has_room():
            return [f"history full {self.events}"]
        self.events += 1
        self.opened += 1
        self.sessions[self.opened] = Session(seat)
        return [f"opened {self.opened}"]

    def pin(self, number, session):
        goes_on = session.last == "found" or session.last in ("led", "joined") and self.end_of(session) == "published"
        if session.last is not None and not goes_on:
            return NOT_ALLOWED
        if session.last is None:
            if not self.history_has_room():
                return [f"history full {self.events}"]
            session.request += 1
            session.attempt = 0
        self.events += 1
        session.attempt += 1
        session.version = self.version
        session.tell("pinned")
        return [f"pinned {number} {session.request} {session.attempt} {self.version}"]

    def lack(self, number, session, iri):
        if session.last != "pinned" or self.was_stored(iri, session.version) or len(iri) > 2048:
            return NOT_ALLOWED
        if len(session.held) >= self.held:
            return self.refuse(session, f"too many {len(session.held)}")
        if iri in self.stored:
            self.events += 1
            session.hold(iri, "found")
            return [f"found {number}"]
        flight = self.flying(iri, "lead")
        if flight is not None:
            self.events += 1
            session.hold(iri, "joined", flight)
            return [f"joined {number} {flight}"]
        return self.lack_new(number, session, iri)

    def lack_new(self, number, session, iri):
        is_full = self.places() == self.contexts
        may_go = self.may_go()
        if is_full and not may_go:
            return self.refuse(session, "store full")
        if not self.archive_has_room():
            return self.refuse(session, f"archive full {self.bytes}")
        lines = [self.put_out(min(may_go, key=lambda i: self.stored[i][0]))] if is_full else []
        if iri not in self.turns:
            self.turns[iri] = []
            self.bytes += len(iri)
        flight = self.lead(iri, "lead")
        session.hold(iri, "led", flight)
        return lines + [f"led {number} {flight}"]

    def give(self, number, flight, length, mark):
        answer = (int(length), mark)
        self.events += 1
        if flight.kind == "revise" and self.stored[flight.iri][1] == answer:
            flight.end = "same"
            return [f"same {number}"]
        version = self.next_version()
        if flight.iri not in self.stored:
            self.turns[flight.iri].append(version)
        self.stored[flight.iri] = (version, answer)
        self.bytes += 0 if answer[0] == OVERSIZE else answer[0]
        flight.end = "published"
        return [f"published {number} {version}"]

    def fail(self, number, flight, before, after):
        before, after = int(before), int(after)
        if not (before < after or before == after == LAST_FAULT):
            return NOT_ALLOWED
        self.events += 1
        flight.end = "failed"
        return [f"failed {number}"]

    def lapse(self, number, flight):
        self.events += 1
        flight.end = "lapsed"
        return [f"lapsed {number}"]

    def evict(self, number, session, iri):
        if session.last != "pinned":
            return NOT_ALLOWED
        if iri not in self.stored:
            return self.refuse(session, f"not stored {self.version}")
        if self.holder(iri) is not None:
            return self.refuse(session, f"held {self.holder(iri)}")
        if self.flying(iri, "revise") is not None:
            return self.refuse(session, f"revising {self.flying(iri, 'revise')}")
        return self.refuse(session, self.put_out(iri))

    def revise(self, number, session, iri):
        if session.last != "pinned":
            return NOT_ALLOWED
        if iri not in self.stored:
            return self.refuse(session, f"not stored {self.version}")
        if self.flying(iri, "revise") is not None:
            return self.refuse(session, f"flying {self.flying(iri, 'revise')}")
        if not self.archive_has_room():
            return self.refuse(session, f"archive full {self.bytes}")
        flight = self.lead(iri, "revise")
        session.tell("revising", flight)
        return [f"revising {number} {flight}"]

    def answer(self, number, session):
        is_over = session.last == "pinned"
        if session.last in ("led", "joined", "revising"):
            is_over = self.end_of(session) in ("failed", "lapsed")
        if session.last == "revising":
            is_over = self.end_of(session) is not None
        return self.refuse(session, f"answered {number} {session.request}") if is_over else NOT_ALLOWED

    def close(self, number, session):
        if session.last is not None:
            return NOT_ALLOWED
        self.events += 1
        del self.sessions[number]
        return [f"closed {number}"]
