"""Topologies, least paths, scripts, nodes and rounds, written from the rules alone; `run` plays an input and writes its trace.

A link's queue and what is under way on it are lists of parcels, ("message", MESSAGE) or ("ack", IDENTITY). Nothing is kept
on a disk: an agent's journal is the list of its entries. The calls of its disk are counted, so that it stops where that is planned.
"""
import re

from plain_agents import ANSWERED_BY, GREATEST_VERSION, QUERIES, REQUESTS, TOLD
from plain_agents import LAST_SECOND, Aggregator, Provider, Requester, acknowledgement, identity, receiver, spelled

LONGEST_INPUT = 67_108_864
MOST_EVENTS = 2_000_000
GREATEST_CAPACITY = 1_099_511_627_776
LONGEST_HOLD = 86_400
RECORDS = 4_194_304
MOST_AGENTS, MOST_POINTS, MOST_ASKS, GREATEST_RANK = 64, 4_096, 100_000, 4
PLACES = 1_024
STATUS = {"Done": 0, "Usage": 4, "BadTopology": 5, "BadScript": 6, "DiskFault": 7, "Long": 8}
ANSWERS = {kind for kinds in ANSWERED_BY.values() for kind in kinds}
KINDS = {*REQUESTS, *ANSWERS, "reserveResponse", *TOLD, *(f"{kind}Confirmed" for kind in QUERIES)}


class Fault(Exception):
    """The fault of the line that is read."""


def demand_form(is_good):
    """What isn't of its form is Word."""
    if not is_good:
        raise Fault("Word")


def number(word, least, greatest):
    demand_form(re.fullmatch("[0-9]{1,20}", word) and least <= int(word) <= greatest)
    return int(word)


def name(word):
    demand_form(re.fullmatch(r"[!#-\[\]-~]{1,128}", word))
    return word


def lines_of(text):
    """The lines without their ends; a carriage return before a line feed belongs to the end."""
    *whole, last = text.decode("latin-1").split("\n")
    return [line.removesuffix("\r") for line in whole] + ([last] if last else [])


def is_skipped(line):
    return line == "" or line.startswith("#")


def words_of(line):
    return re.split("[ \t]", line)


class Topology:
    def __init__(self):
        # Dictionaries with kind, and hold, provider or children; and with owner, capacity by flow, and partner.
        self.agents = {}
        self.points = {}

    def number(self, agent):
        return list(self.agents).index(agent)

    def kind(self, agent):
        return self.agents[agent]["kind"] if agent in self.agents else None

    def children(self, agent):
        return self.agents[agent].get("children", [])

    def rank(self, agent):
        """The longest way down; an aggregator without children has 1."""
        if self.kind(agent) != "aggregator":
            return 0
        return 1 + max((self.rank(child) for child in self.children(agent)), default=0)

    def below(self, agent):
        """The agent itself and all below it."""
        return {agent}.union(*(self.below(child) for child in self.children(agent)))

    def neighbours(self, agent):
        """The agents with which an agent has links, in their order."""
        joined = {other for other in self.agents if other in self.children(agent) or agent in self.children(other)}
        joined |= {other for other, what in self.agents.items() if what.get("provider") == agent}
        joined |= {self.agents[agent].get("provider")} - {None}
        return sorted(joined, key=self.number)

    def own_points(self, provider):
        return [point for point, what in self.points.items() if what["owner"] == provider]

    def take(self, line):
        words = words_of(line)
        forms = {"agent": (4, 3), "stp": (4, 5), "sdp": (3,), "child": (3,)}
        demand_form(words[0] in forms and len(words) in forms[words[0]])
        getattr(self, words[0])(*words[1:])

    def agent(self, agent, kind, *rest):
        what = {"kind": kind}
        name(agent)
        if kind == "provider" and rest:
            what["hold"] = number(rest[0], 1, LONGEST_HOLD)
        elif kind == "requester" and rest:
            what["provider"] = name(rest[0])
            if self.kind(rest[0]) not in ("provider", "aggregator"):
                raise Fault("Unknown")
        else:
            demand_form(kind == "aggregator" and not rest)
            what["children"] = []
        if agent in self.agents:
            raise Fault("Twice")
        if len(self.agents) == MOST_AGENTS:
            raise Fault("Limit")
        self.agents[agent] = what

    def stp(self, provider, point, *capacities):
        name(provider), name(point)
        flows = ("Both",) if len(capacities) == 1 else ("In", "Out")
        most = {flow: number(capacity, 1, GREATEST_CAPACITY) for flow, capacity in zip(flows, capacities)}
        what = {"owner": provider, "capacity": most, "partner": None}
        if self.kind(provider) != "provider":
            raise Fault("Unknown")
        if point in self.points:
            raise Fault("Twice")
        if len(self.points) == MOST_POINTS:
            raise Fault("Limit")
        self.points[point] = what

    def sdp(self, *ends):
        one, other = [name(end) for end in ends]
        if one not in self.points or other not in self.points:
            raise Fault("Unknown")
        one_point, other_point = self.points[one], self.points[other]
        if one_point["partner"] or other_point["partner"] or one_point["owner"] == other_point["owner"]:
            raise Fault("Twice")
        one_point["partner"], other_point["partner"] = other, one

    def child(self, parent, child):
        for agent in (parent, child):
            name(agent)
        if self.kind(parent) != "aggregator" or self.kind(child) not in ("provider", "aggregator"):
            raise Fault("Unknown")
        if child in self.children(parent):
            raise Fault("Twice")
        if parent in self.below(child):
            raise Fault("Cycle")
        self.children(parent).append(child)
        if any(self.rank(agent) > GREATEST_RANK for agent in self.agents):
            raise Fault("TooDeep")

    def joins(self, agent):
        """The pairs of points, entry and exit, that an agent joins: a provider all of its own."""
        if self.kind(agent) == "provider":
            own = self.own_points(agent)
            return {(entry, exit) for entry in own for exit in own}
        steps = {pair for child in self.children(agent) for pair in self.joins(child) if pair[0] != pair[1]}
        pairs = set(steps)
        while True:
            further = [(entry, self.points[exit]["partner"]) for entry, exit in pairs]
            longer = {(entry, last) for entry, begin in further for first, last in steps if first == begin}
            if longer <= pairs:
                return pairs
            pairs |= longer

    def find(self, aggregator, source, dest):
        """The least path's segments (child, entry, exit), or None: fewest segments, then points, then children."""
        order = list(self.points)
        segments = []
        for place, child in enumerate(self.children(aggregator)):
            pairs = sorted(pair for pair in self.joins(child) if pair[0] != pair[1])
            segments += [(place, child, entry, exit) for entry, exit in pairs]
        # The least way with one segment more than before, for each point where one ends; the first begins at the source.
        ways = {None: ([], [], [])}
        for _ in range(len(self.points)):
            longer = {}
            for end, (points, places, path) in ways.items():
                begin = source if end is None else self.points[end]["partner"]
                for place, child, entry, exit in segments:
                    if entry == begin:
                        way = (points + [order.index(entry), order.index(exit)], places + [place], path + [(child, entry, exit)])
                        longer[exit] = min(longer.get(exit, way), way)
            if dest in longer:
                return longer[dest][2]
            ways = longer
        return None


def read_topology(lines):
    """The topology and how many lines it has; a fault has its line."""
    topology = Topology()
    for place, line in enumerate(lines, 1):
        try:
            if line == "---":
                if not topology.agents:
                    raise Fault("Empty")
                return topology, place
            if not is_skipped(line):
                topology.take(line)
        except Fault as fault:
            raise Fault(place, fault.args[0]) from None
    raise Fault(len(lines) + 1, "Word")


class Script:
    """Groups (second, acts), and what becomes of parcels: (from, to, kind, n) is lost or comes twice."""

    def __init__(self, topology):
        self.topology = topology
        self.plan = {}
        # By agent: the image of each call at which its disk stops.
        self.stops = {agent: {} for agent in topology.agents}
        self.groups = []
        self.asks = 0
        self.labels = set()

    def take(self, line):
        words = words_of(line)
        forms = {"lose": (5,), "repeat": (5,), "stop": (4,), "at": (2,), "force": (3,), "restart": (2,)}
        if words[0] == "ask":
            self.ask(*words[1:])
            return
        demand_form(words[0] in forms and len(words) in forms[words[0]])
        demand_form(not (self.groups and words[0] in ("lose", "repeat", "stop")))
        if words[0] in ("lose", "repeat"):
            self.lose_or_repeat(*words)
        else:
            getattr(self, words[0])(*words[1:])

    def lose_or_repeat(self, how, sender, to, kind, nth):
        for agent in (sender, to):
            name(agent)
        demand_form(kind in KINDS or kind == "ack")
        key = (sender, to, kind, number(nth, 1, 2**64 - 1))
        demand_form(key not in self.plan)
        if sender not in self.topology.agents or to not in self.topology.neighbours(sender):
            raise Fault("Agent")
        self.plan[key] = how

    def stop(self, agent, call, image):
        name(agent)
        call = number(call, 1, 2**64 - 1)
        demand_form(image in ("old", "new", "torn"))
        demand_form(call not in self.stops.get(agent, {}))
        if agent not in self.stops:
            raise Fault("Agent")
        self.stops[agent][call] = image

    def restart(self, agent):
        name(agent)
        self.act(agent, ("provider", "aggregator", "requester"), ("restart",))

    def at(self, second):
        second = number(second, 0, LAST_SECOND)
        if self.groups and second < self.groups[-1][0]:
            raise Fault("Time")
        self.groups.append((second, []))

    def act(self, agent, kinds, act):
        if self.topology.kind(agent) not in kinds:
            raise Fault("Agent")
        if not self.groups:
            raise Fault("Time")
        self.groups[-1][1].append((agent, act))

    def force(self, agent, record):
        self.act(name(agent), ("provider",), ("force", number(record, 0, RECORDS - 1)))

    def ask(self, *words):
        demand_form(len(words) >= 2)
        agent, words = name(words[0]), self.asked(words[1], *words[2:])
        self.act(agent, ("requester",), ("ask", words))
        if words[0] == "reserve":
            self.labels.add((agent, words[1]))
        elif len(words) > 1 and (agent, words[1]) not in self.labels:
            raise Fault("Label")
        self.asks += 1
        if self.asks > MOST_ASKS:
            raise Fault("Limit")

    def asked(self, what, *words):
        """What is asked, with its label and numbers."""
        if what in ("summary", "notifications", "results", "recursive"):
            counts = {"summary": (0, 1), "recursive": (1,)}.get(what, (1, 3))
            demand_form(len(words) in counts)
            for word in words[:1]:
                name(word)
            numbers = [number(word, 0, 2**64 - 1) for word in words[1:]]
            return what, *words[:1], *numbers
        if what != "reserve":
            demand_form(what in ("commit", "abort", "provision", "release", "terminate") and len(words) == 1)
            return what, name(words[0])
        words, way = (words[:-1], ["one"]) if words[6:] and words[-1] == "one" else (words, [])
        demand_form(len(words) in (6, 7) and words[1] != words[2])
        label, source, dest = [name(word) for word in words[:3]]
        schedule = [number(words[3], 1, GREATEST_CAPACITY), *(number(word, 0, LAST_SECOND) for word in words[4:6])]
        version = [number(word, 0, GREATEST_VERSION) for word in words[6:]]
        return what, label, source, dest, *schedule, *version, *way


def read_script(lines, first_line, topology):
    script = Script(topology)
    for place, line in enumerate(lines, first_line):
        try:
            if not is_skipped(line):
                script.take(line)
        except Fault as fault:
            raise Fault(place, fault.args[0]) from None
    return script


def agent_of(topology, agent):
    what, place = topology.agents[agent], topology.number(agent)
    if what["kind"] == "provider":
        own = {point: topology.points[point]["capacity"] for point in topology.own_points(agent)}
        return Provider(place, agent, what["hold"], own)
    if what["kind"] == "aggregator":
        return Aggregator(place, agent, topology.points, lambda source, dest: topology.find(agent, source, dest))
    return Requester(place, agent, what["provider"])


class End(Exception):
    """How a run ends before its script: the word of its status, and its fault line."""


class Disk:
    """What is counted of an agent's disk: its calls, and whether its file is shorter than a batch."""

    def __init__(self, agent, stops):
        self.agent = agent
        self.stops = stops
        self.calls = 0
        self.is_short = True

    def call(self):
        """The image of a stop at the next call."""
        self.calls += 1
        return self.stops.get(self.calls)

    def tries(self, calls):
        """So many calls, which begin again where the disk stops among them. How often it stopped."""
        tries = 0
        while any(self.call() for _ in range(calls)):
            tries += 1
        return tries

    def make(self):
        """The file is cut, that is synced, a closed gate is written, and that is synced."""
        return self.tries(4)

    def read(self):
        """A sync, the length, and the bytes; a short file gets a closed gate, which is synced."""
        return self.tries(5 if self.is_short else 3)

    def keep(self):
        """A batch is written, synced, its gate is opened, and that is synced. Whether the disk stops there, and whether the batch is kept."""
        for call in range(1, 5):
            image = self.call()
            if image:
                self.is_short = self.is_short and call <= 2 and image == "old"
                return True, (call == 3 and image == "new") or (call == 4 and image != "old")
        self.is_short = False
        return False, True


class Node:
    """An agent with its links: what waits to be sent, and what was sent to it before the round."""

    def __init__(self, topology, agent, plan, stops):
        self.begin = lambda: agent_of(topology, agent)
        self.agent = self.begin()
        self.plan = plan
        self.entries = []
        self.synced = 0
        self.unsynced_messages = []
        self.others = topology.neighbours(agent)
        self.queues = {other: [] for other in self.others}
        self.incoming = {other: [] for other in self.others}
        self.pushed = {other: [] for other in self.others}
        self.counts = {}
        self.events = []
        self.disk = Disk(agent, stops)
        self.has_stopped = False

    def enter(self, entry, *words):
        """Takes an entry, and writes its event with the answer in front of the words, where there is one."""
        answer, caused = self.agent.next(entry)
        self.entries.append(entry)
        self.unsynced_messages += caused
        words = (entry[0], self.agent.name, *([answer] if answer else []), *words)
        self.events.append(" ".join(map(str, words)))

    def tick(self, second):
        """A node is quiet before a group, so that nothing is queued before its tick."""
        for message in self.agent.waiting.values():
            self.queues[receiver(message)].append(("message", message))
        self.enter(("tick", second), second)

    def act(self, act):
        if act[0] == "restart":
            self.restart()
        else:
            self.enter(act, *(act[1] if act[0] == "ask" else act[1:]))

    def restart(self):
        """Goes on from the synced entries: what was queued is gone, what waits for its acknowledgement is queued, what came lies there."""
        tries = self.disk.read()
        self.has_stopped = False
        self.entries = self.entries[: self.synced]
        self.agent = self.begin()
        for entry in self.entries:
            self.agent.next(entry)
        self.unsynced_messages = []
        self.queues = {other: [] for other in self.others}
        for message in self.agent.waiting.values():
            self.queues[receiver(message)].append(("message", message))
        self.events += (1 + tries) * [f"restart {self.agent.name} {self.synced}"]

    def is_quiet(self):
        under_way = [*self.queues.values(), *self.incoming.values()]
        return len(self.entries) == self.synced and self.agent.waiting_work() is None and not any(under_way)

    def turn(self, room):
        """A turn, which ends where the disk stops: then what was kept is synced, and nothing is queued or pushed."""
        for other in self.others:
            for parcel in self.incoming[other]:
                self.take(other, *parcel)
            self.incoming[other] = []
        while work := self.agent.waiting_work():
            self.enter(("work", *work), work[0], work[1].lower())
        if self.synced < len(self.entries):
            if len(self.events) >= room:
                raise End("Long", "fault long")
            self.has_stopped, is_kept = self.disk.keep()
            self.synced = len(self.entries) if is_kept else self.synced
            if self.has_stopped:
                return
            self.events.append(f"sync {self.agent.name} {self.synced}")
            for message in self.unsynced_messages:
                self.queues[receiver(message)].append(("message", message))
            self.unsynced_messages = []
        for other in self.others:
            self.push(other)

    def take(self, other, what, content):
        if what == "ack":
            if content in self.agent.waiting:
                self.enter(("acked", content), spelled(acknowledgement(content)))
            return
        if not self.agent.is_seen(content):
            self.enter(("got", content), spelled(content))
        self.queues[other].append(("ack", identity(content)))

    def push(self, other):
        """Pushes a queue in order, as far as there are places in this round."""
        while self.queues[other]:
            what, content = self.queues[other][0]
            kind = "ack" if what == "ack" else content["kind"]
            nth = self.counts.get((other, kind), 0) + 1
            how = self.plan.get((self.agent.name, other, kind, nth))
            needed = {"lose": 0, "repeat": 2}.get(how, 1)
            if len(self.pushed[other]) + needed > PLACES:
                return
            self.counts[other, kind] = nth
            self.pushed[other] += needed * [(what, content)]
            self.queues[other].pop(0)


def nodes_of(topology, script):
    return {agent: Node(topology, agent, script.plan, script.stops[agent]) for agent in topology.agents}


def make_round(nodes, room):
    """One agent after another has its turn; then what was pushed is under way to its receiver."""
    for node in nodes.values():
        node.turn(room)
    for node in nodes.values():
        for other in node.others:
            nodes[other].incoming[node.agent.name] = node.pushed[other]
            node.pushed[other] = []


def taken_events(nodes):
    events = [event for node in nodes.values() for event in node.events]
    for node in nodes.values():
        node.events = []
    return events


class Events:
    """What has happened in a group; there is room for so many."""

    def __init__(self, room):
        self.all = []
        self.room = room

    def take(self, nodes):
        self.all += taken_events(nodes)

    def demand_room(self):
        if len(self.all) > self.room:
            raise End("Long", "fault long")


def reach(topology, agent, source, dest):
    """How many agents a reserve between two points comes to, by the least paths."""
    finds = topology.kind(agent) == "aggregator" and source in topology.points and dest in topology.points
    path = topology.find(agent, source, dest) if finds else None
    return 1 + sum(reach(topology, *segment) for segment in path or [])


def weight(topology, script, restarts):
    """How many events the run of a script has at most, with so many restarts."""
    acts = [act for _, acts in script.groups for act in acts]
    asks = [(agent, act[1]) for agent, act in acts if act[0] == "ask"]
    most = {}
    for agent, words in asks:
        if words[0] == "reserve":
            here = reach(topology, topology.agents[agent]["provider"], words[2], words[3])
            most[agent, words[1]] = max(most.get((agent, words[1]), 0), here)
    reaches = sum(most.get((agent, words[1]), 0) if len(words) > 1 else 1 for agent, words in asks)
    forces = sum(act[0] == "force" for _, act in acts)
    held = len(topology.agents) * len(script.groups) + forces + len(asks) + 3 * 32 * reaches
    return 2 * (1 + restarts) * held + restarts


def weighed(text):
    """The weight of an input that is played to its end, and its events; None where it has another end."""
    status, written = run(text)
    if status != STATUS["Done"]:
        return None
    lines = lines_of(text)
    topology, length = read_topology(lines)
    script = read_script(lines[length:], length + 1, topology)
    restarts = sum(line.split()[:1] in (["restart"], ["stop"]) for line in lines[length:])
    return weight(topology, script, restarts), len(written) - 1


def play_group(nodes, second, acts, room=MOST_EVENTS):
    """Behind a round those whose disks have stopped go on, and behind its other events stand theirs."""
    events = Events(room)
    for node in nodes.values():
        node.tick(second)
    events.take(nodes)
    for agent, act in acts:
        events.demand_room()
        nodes[agent].act(act)
        events.take(nodes)
    events.demand_room()
    while not all(node.is_quiet() for node in nodes.values()):
        make_round(nodes, room - len(events.all))
        events.take(nodes)
        events.demand_room()
        for node in nodes.values():
            if node.has_stopped:
                node.restart()
        events.take(nodes)
        events.demand_room()
    return events.all


def play(nodes, groups, limit):
    """The lines of the run's whole groups, and how it ends before its script, if it does."""
    made = [f"restart {agent} 0" for agent, node in nodes.items() for _ in range(node.disk.make())]
    if len(made) > limit:
        return [], End("Long", "fault long")
    written = made
    try:
        for second, acts in groups:
            written += play_group(nodes, second, acts, limit - len(written))
    except End as end:
        return written, end
    return written, None


def run(text, limit=MOST_EVENTS):
    """The status and the lines that are written."""
    if len(text) > LONGEST_INPUT:
        return STATUS["Long"], ["fault long"]
    lines = lines_of(text)
    try:
        topology, length = read_topology(lines)
    except Fault as fault:
        return STATUS["BadTopology"], ["fault topology {} {}".format(*fault.args)]
    try:
        script = read_script(lines[length:], length + 1, topology)
    except Fault as fault:
        return STATUS["BadScript"], ["fault script {} {}".format(*fault.args)]
    written, end = play(nodes_of(topology, script), script.groups, limit)
    if end:
        word, line = end.args
        return STATUS[word], [*written, line]
    return STATUS["Done"], [*written, f"settled {len(written)}"]
