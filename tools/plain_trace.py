"""Whether the lines of a trace are the text of a run, from the definitions alone: journals, what is synced of them, and what that makes
each agent say. Nothing is kept from one event to the next but the journals: an agent that begins again takes its entries anew.
"""
import re

from plain_agents import identity, receiver, spelled
from plain_lines import LAST_SECOND, parcel_of
from plain_world import MOST_ASKS, MOST_EVENTS, RECORDS, Fault, Script, agent_of, lines_of, read_topology
from plain_world import LONGEST_INPUT, STATUS

MOST_ENTRIES = 4_194_304
MACHINES = {"reserve": "Reserve", "provision": "Provision", "lifecycle": "Lifecycle"}
ANSWER = re.compile(r"sent|noid|outstanding=urn:uuid:[0-9a-f]{8}(-[0-9a-f]{4}){3}-[0-9a-f]{12}")


class NoEvent(Exception):
    """The line is that of no event."""


def need(is_good):
    if not is_good:
        raise NoEvent


def count_of(word, greatest):
    need(re.fullmatch("0|[1-9][0-9]{0,19}", word) and int(word) <= greatest)
    return int(word)


def ask_of(text):
    words = text.split(" ")
    try:
        asked = Script.asked(None, *words)
    except (Fault, TypeError):
        raise NoEvent from None
    need(" ".join(map(str, asked)) == text)
    return asked


def parcel_in(text, is_ack):
    parcel = parcel_of(text)
    need(parcel is not None and (parcel["kind"] == "ack") == is_ack)
    return parcel


def event_of(topology, line):
    """The agent, the entry or what else happens, and the answer to an ask."""
    verb, _, rest = line.partition(" ")
    agent, space, rest = rest.partition(" ")
    need(space and agent in topology.agents)
    if verb == "tick":
        return agent, ("tick", count_of(rest, LAST_SECOND)), None
    if verb == "ask":
        answer, space, what = rest.partition(" ")
        need(space and ANSWER.fullmatch(answer))
        return agent, ("ask", ask_of(what)), answer
    if verb == "got":
        return agent, ("got", parcel_in(rest, False)), None
    if verb == "acked":
        ack = parcel_in(rest, True)
        return agent, ("acked", (ack["requesterNSA"], ack["providerNSA"], ack["correlationId"], ack["of"])), None
    if verb == "work":
        number, _, machine = rest.partition(" ")
        need(machine in MACHINES)
        return agent, ("work", count_of(number, RECORDS - 1), MACHINES[machine]), None
    if verb == "force":
        return agent, ("force", count_of(rest, RECORDS - 1)), None
    need(verb in ("sync", "restart"))
    return agent, (verb, count_of(rest, 2**64 - 1)), None


class Seat:
    """An agent with its journal, how much of it is synced, and what each entry made it say."""

    def __init__(self, topology, name):
        self.begin = lambda: agent_of(topology, name)
        self.name, self.kind = name, topology.agents[name]["kind"]
        self.agent, self.journal, self.synced, self.caused = self.begin(), [], 0, []

    def said(self):
        return [message for caused in self.caused[: self.synced] for message in caused]

    def enter(self, entry):
        answer, caused = self.agent.next(entry)
        self.journal.append(entry)
        self.caused.append([dict(message) for message in caused])
        return answer

    def restart(self, count):
        entries, self.agent, self.journal, self.caused = self.journal[:count], self.begin(), [], []
        for entry in entries:
            self.enter(entry)
        self.synced = count


class World:
    def __init__(self, topology):
        self.topology = topology
        self.seats = {name: Seat(topology, name) for name in topology.agents}
        # What was said, by its spelling, and which of it its receiver has taken by a synced entry.
        self.said, self.taken = {}, set()

    def sync(self, seat):
        for message in seat.said():
            self.said.setdefault(spelled(message), set()).add(seat.name)
        for what, *content in seat.journal[: seat.synced]:
            if what == "got":
                self.taken.add(spelled(content[0]))

    def may_come(self, seat, entry):
        what = entry[0]
        if what == "ask":
            return seat.kind == "requester"
        if what in ("work", "force"):
            return seat.kind == "provider"
        if what == "got":
            return receiver(entry[1]) == seat.name and spelled(entry[1]) in self.said
        if what == "acked":
            said = (message for message in seat.said() if identity(message) == entry[1])
            return any(spelled(message) in self.taken for message in said)
        return entry[1] >= seat.agent.now

    def happens(self, name, what, answer):
        """Whether it is allowed; then it has happened."""
        seat = self.seats[name]
        if what[0] in ("sync", "restart"):
            least = len(seat.journal) if what[0] == "sync" else seat.synced
            if not least <= what[1] <= len(seat.journal):
                return False
            if what[0] == "restart":
                seat.restart(what[1])
            seat.synced = what[1]
            self.sync(seat)
            return True
        if len(seat.journal) >= MOST_ENTRIES or not self.may_come(seat, what):
            return False
        return seat.enter(what) == answer


def verdict_of(topology, lines, first_line, limit):
    """`run E`, `not L WHY`, or `fault long`."""
    world, asks = World(topology), 0
    for place, line in enumerate(lines):
        here = first_line + place
        if line.startswith("settled "):
            if line != f"settled {place}":
                return f"not {here} End"
            return f"not {here + 1} End" if place + 1 < len(lines) else f"run {place}"
        try:
            name, what, answer = event_of(topology, line)
            need(what[0] != "ask" or asks < MOST_ASKS)
        except NoEvent:
            return f"not {here} Form"
        if not world.happens(name, what, answer):
            return f"not {here} NotAllowed"
        asks += what[0] == "ask"
        if place == limit:
            return "fault long"
    return f"not {first_line + len(lines)} End"


def trace_lines(text):
    """Each line ends with a line feed alone; what stands behind the last one is a line too."""
    *whole, last = text.split(b"\n")
    return [line.decode("utf-8", "surrogateescape") for line in [*whole, *([last] if last else [])]]


def verify(text, limit=MOST_EVENTS):
    """The status and the line that is written."""
    if len(text) > LONGEST_INPUT:
        return STATUS["Long"], "fault long"
    try:
        topology, length = read_topology(lines_of(text))
    except Fault as fault:
        return STATUS["BadTopology"], "fault topology {} {}".format(*fault.args)
    verdict = verdict_of(topology, trace_lines(text)[length:], length + 1, limit)
    return STATUS["Long" if verdict == "fault long" else "Done"], verdict
