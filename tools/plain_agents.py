"""A provider, an aggregator and a requester, written from the rules alone, over plain lists and dictionaries.

A message is a dictionary with the keys of its line, an identity and an entry are tuples, and records and views are
dictionaries. There is no calendar and no index: a load is a sum over all records. An agent's `next` takes one entry:

    ("ask", WORDS)  ("got", MESSAGE)  ("work", NUMBER, MACHINE)  ("tick", SECOND)  ("force", NUMBER)  ("acked", IDENTITY)

and gives the answer to an ask (else None) and the messages that it causes.
"""
import datetime
import json
import re
import uuid

GREATEST_VERSION = 2_147_483_647
LATE = 120

# The machine and the event of each request.
EVENTS = {
    "reserve": ("Reserve", "Reserve"),
    "reserveCommit": ("Reserve", "Commit"),
    "reserveAbort": ("Reserve", "Abort"),
    "provision": ("Provision", "Provision"),
    "release": ("Provision", "Release"),
    "terminate": ("Lifecycle", "Terminate"),
}
QUERIES = ("querySummary", "queryNotification", "queryResult", "queryRecursive")
REQUESTS = (*EVENTS, *QUERIES)
# What a requester asks for, as the kind of its query and the name of the numbers that it may have.
QUERIED = {
    "summary": ("querySummary", ""),
    "notifications": ("queryNotification", "NotificationId"),
    "results": ("queryResult", "ResultId"),
    "recursive": ("queryRecursive", ""),
}
# What answers a request at a view.
ANSWERED_BY = {
    "reserve": ("reserveConfirmed", "reserveFailed", "error"),
    "reserveCommit": ("reserveCommitConfirmed", "reserveCommitFailed", "error"),
    "reserveAbort": ("reserveAbortConfirmed", "error"),
    "provision": ("provisionConfirmed", "error"),
    "release": ("releaseConfirmed", "error"),
    "terminate": ("terminateConfirmed", "error"),
}
# What a record counts as its outcomes.
OUTCOMES = (
    "reserveConfirmed", "reserveFailed", "reserveCommitConfirmed", "reserveCommitFailed", "reserveAbortConfirmed",
    "provisionConfirmed", "releaseConfirmed", "terminateConfirmed",
)
# How many rows an answer has at most.
MOST_SUMMARIES, MOST_NUMBERED, MOST_NESTED = 16, 32, 128
GREATEST_DEPTH = 255
TOLD = ("reserveTimeout", "errorEvent", "dataPlaneStateChange", "messageDeliveryTimeout")

# State, event, next state, message.
RESERVE = [
    ("ReserveStart", "Reserve", "ReserveChecking", "reserveResponse"),
    ("ReserveChecking", "Fit", "ReserveHeld", "reserveConfirmed"),
    ("ReserveChecking", "Lack", "ReserveFailed", "reserveFailed"),
    ("ReserveHeld", "Commit", "ReserveCommitting", None),
    ("ReserveHeld", "Abort", "ReserveAborting", None),
    ("ReserveHeld", "HoldEnd", "ReserveTimeout", "reserveTimeout"),
    ("ReserveFailed", "Abort", "ReserveAborting", None),
    ("ReserveTimeout", "Abort", "ReserveAborting", None),
    ("ReserveCommitting", "Done", "ReserveStart", "reserveCommitConfirmed"),
    ("ReserveCommitting", "Spoiled", "ReserveStart", "reserveCommitFailed"),
    ("ReserveAborting", "Freed", "ReserveStart", "reserveAbortConfirmed"),
]
PROVISION = [
    ("Released", "Provision", "Provisioning", None),
    ("Provisioning", "Done", "Provisioned", "provisionConfirmed"),
    ("Provisioned", "Release", "Releasing", None),
    ("Releasing", "Done", "Released", "releaseConfirmed"),
    ("Provisioning", "Spoiled", "Released", "error"),
    ("Releasing", "Spoiled", "Released", "error"),
]
AGAIN = {
    "Provider": [
        ("Provisioned", "Provision", "Provisioned", "provisionConfirmed"),
        ("Released", "Release", "Released", "releaseConfirmed"),
    ],
    "Aggregator": [
        ("Provisioned", "Provision", "Provisioning", None),
        ("Released", "Release", "Releasing", None),
    ],
}
LIFECYCLE = [
    ("Created", "Force", "Failed", "errorEvent"),
    ("Created", "EndTime", "PassedEndTime", None),
    ("Created", "Terminate", "Terminating", None),
    ("Failed", "Terminate", "Terminating", None),
    ("PassedEndTime", "Terminate", "Terminating", None),
    ("Terminating", "Done", "Terminated", "terminateConfirmed"),
]
# Where a reservation has pending criteria.
PENDING = ("ReserveChecking", "ReserveHeld", "ReserveCommitting")
# Where work waits at a provider.
WAITING = {
    "Reserve": ("ReserveChecking", "ReserveCommitting", "ReserveAborting"),
    "Provision": ("Provisioning", "Releasing"),
}


def row(side, machine, state, event):
    """The next state and the message of a move, or None where no row fits."""
    rows = {"Reserve": RESERVE, "Provision": PROVISION + AGAIN[side], "Lifecycle": LIFECYCLE}[machine]
    return next(((after, kind) for at, on, after, kind in rows if (at, on) == (state, event)), None)


def id_of(agent, number):
    return f"urn:uuid:{uuid.UUID(int=agent * 2**80 + 8 * 2**76 + 2 * 2**62 + number)}"


EPOCH = datetime.datetime(1970, 1, 1)
LAST_SECOND = 253_370_764_799
TIMES = ("startTime", "endTime")
DATE_TIME = re.compile(
    r"(\d{4})-(\d\d)-(\d\d)[Tt](\d\d):(\d\d):(\d\d)(?:\.\d{1,9})?(?:[Zz]|([+-])(\d\d):(\d\d))?", re.ASCII
)


def date_time(second):
    """The text of a second, as `2027-03-01T00:00:00Z`."""
    return f"{(EPOCH + datetime.timedelta(seconds=second)).isoformat()}Z"


def second_of(text):
    """The second of a date-time, or None: of RFC 3339, with an offset or none, lower-case letters and a fraction, which is dropped."""
    parts = DATE_TIME.fullmatch(text)
    if parts is None:
        return None
    year, month, day, hour, minute, second = map(int, parts.groups()[:6])
    ahead = [int(part or 0) for part in parts.groups()[7:]]
    if max(hour, ahead[0]) > 23 or max(minute, second, ahead[1]) > 59:
        return None
    try:
        days = datetime.date(year, month, day).toordinal() - EPOCH.toordinal()
    except ValueError:
        return None
    offset = (3600 * ahead[0] + 60 * ahead[1]) * (-1 if parts[7] == "-" else 1)
    found = 86_400 * days + 3600 * hour + 60 * minute + second - offset
    return found if 0 <= found <= LAST_SECOND else None


def dated(value):
    """With times as they are printed."""
    if isinstance(value, list):
        return [dated(one) for one in value]
    if not isinstance(value, dict):
        return value
    return {key: date_time(one) if key in TIMES and type(one) is int else dated(one) for key, one in value.items()}


def timed(value):
    """With times as numbers, where they are date-times."""
    if isinstance(value, list):
        return [timed(one) for one in value]
    if not isinstance(value, dict):
        return value
    return {key: second_of(one) if key in TIMES and isinstance(one, str) else timed(one) for key, one in value.items()}


def spelled(keys):
    return json.dumps(dated(keys), sort_keys=True, separators=(",", ":"), ensure_ascii=False)


def message(kind, correlation, requester, provider, /, **keys):
    header = {"kind": kind, "correlationId": correlation, "requesterNSA": requester, "providerNSA": provider}
    return {**header, **{key: value for key, value in keys.items() if value is not None}}


def identity(of):
    return of["requesterNSA"], of["providerNSA"], of["correlationId"], of["kind"]


def acknowledgement(acked):
    requester, provider, correlation, kind = acked
    return message("ack", correlation, requester, provider, of=kind)


def receiver(of):
    """The name of the agent to which a message goes."""
    return of["providerNSA"] if of["kind"] in REQUESTS else of["requesterNSA"]


def covers(criteria, second):
    return criteria["startTime"] <= second < criteria["endTime"]


def books(record, point, flow):
    """Traffic goes in at the source and out at the destination, and the other way too where it goes both ways."""
    ends, both_ways = (point == record["source"], point == record["dest"]), record["directionality"] != "Unidirectional"
    first = {"Both": True, "In": ends[0], "Out": ends[1]}[flow]
    return any(ends) and (first or both_ways)


def demand(record, point, flow, second):
    """The larger of what a record has committed and what it holds there."""
    if not books(record, point, flow) or record["Lifecycle"] == "Terminated":
        return 0
    counted = record["committed"][-1:]
    if record["Reserve"] in ("ReserveHeld", "ReserveCommitting"):
        counted = [*counted, record["pending"]]
    return max((criteria["capacity"] for criteria in counted if covers(criteria, second)), default=0)


def joined(planes):
    """The data plane's status of a connection whose parts have these."""
    versions = [plane["version"] for plane in planes]
    return {
        "active": bool(planes) and all(plane["active"] for plane in planes),
        "version": min(versions, default=0),
        "versionConsistent": all(plane["versionConsistent"] for plane in planes) and len(set(versions)) <= 1,
    }


def is_announced(before, after):
    return before["active"] != after["active"] or (after["active"] and before != after)


IDLE = {"active": False, "version": 0, "versionConsistent": True}


class Agent:
    """What all agents have: a second, ids to draw, what was taken, and what waits for its acknowledgement."""

    def __init__(self, number, name):
        self.number, self.name = number, name
        self.now = 0
        self.drawn = 0
        self.taken = set()
        # The messages that wait for their acknowledgement, by identity, in the order in which they were caused.
        self.waiting = {}
        self.caused = []

    def draw(self):
        self.drawn += 1
        return id_of(self.number, self.drawn)

    def is_seen(self, of):
        return identity(of) in self.taken or (of["kind"] in REQUESTS and identity(of)[:3] in self.taken)

    def next(self, entry):
        self.caused = []
        answer = getattr(self, entry[0])(*entry[1:])
        self.waiting.update((identity(of), of) for of in self.caused)
        return answer, self.caused

    def got(self, of):
        if self.is_seen(of):
            return
        self.taken.add(identity(of))
        if of["kind"] in REQUESTS:
            self.taken.add(identity(of)[:3])
        self.take(of)

    def acked(self, acked):
        self.waiting.pop(acked, None)

    def tick(self, second):
        self.now = second

    def work(self, _number, _machine):
        pass

    def force(self, _number):
        pass

    def waiting_work(self):
        return None


class Server(Agent):
    """What providers and aggregators share: records, and how a request is taken."""

    def __init__(self, number, name):
        super().__init__(number, name)
        self.records = []

    def record_of(self, request):
        """The requester's record that a request names."""
        keys = (request.get("connectionId"), request["requesterNSA"])
        return next((record for record in self.records if (record["id"], record["owner"]) == keys), None)

    def refusal(self, request, record):
        """The first cause for which a request is refused, or None."""
        kind, named = request["kind"], "connectionId" in request
        machine, event = EVENTS[kind]
        if request["providerNSA"] != self.name:
            return "WRONG_PROVIDER"
        if named and record is None:
            return "NONEXISTENT"
        if named and record["Lifecycle"] in ("Terminating", "Terminated"):
            return "GONE"
        if named and kind in ("reserve", "reserveCommit", "provision") and record["Lifecycle"] != "Created":
            return "INVALID_TRANSITION"
        if named and kind == "reserve" and record["mixed"]:
            return "INVALID_TRANSITION"
        if named and kind == "provision" and not record["committed"]:
            return "INVALID_TRANSITION"
        if named and row(self.side, machine, record[machine], event) is None:
            return "INVALID_TRANSITION"
        return self.refusal_of_criteria(request, record) if kind == "reserve" else None

    def refusal_of_criteria(self, request, record):
        kept = {"sourceSTP": "source", "destSTP": "dest", "directionality": "directionality"}
        if record and any(request.get(key, record[name]) != record[name] for key, name in kept.items()):
            return "PAYLOAD"
        if request.get("startTime", self.now) >= request["endTime"]:
            return "SCHEDULE"
        if record is None and not {request["sourceSTP"], request["destSTP"]} <= set(self.points):
            return "UNKNOWN_STP"
        last = record["committed"][-1]["version"] if record and record["committed"] else None
        if last is not None and request.get("version", GREATEST_VERSION + 1) <= last:
            return "VERSION_LOW"
        return "VERSION" if "version" not in request and last == GREATEST_VERSION else None

    def take_request(self, request):
        record = self.record_of(request)
        error = self.refusal(request, record)
        if error is not None:
            self.refuse(request, error)
            return
        before = self.status(record) if record else IDLE
        record = record or self.new_record(request)
        machine, event = EVENTS[request["kind"]]
        record["asked"][machine] = request["correlationId"]
        if event == "Reserve":
            version = record["committed"][-1]["version"] + 1 if record["committed"] else 0
            schedule = {key: request[key] for key in ("endTime", "capacity")}
            record["pending"] = {**schedule, "startTime": request.get("startTime", self.now), "version": request.get("version", version)}
            record["attempt"] = request["correlationId"]
        self.move(record, machine, event)
        self.hand_on(record, request["kind"])
        self.announce(record, before)

    def refuse(self, request, error):
        keys = {"connectionId": request.get("connectionId"), "errorId": error, "nsaId": self.name}
        self.caused.append(message("error", *self.header(request), **keys))

    def take_query(self, query):
        """Answers a query from what is there, which stays as it is; one that waits for children has no answer yet."""
        record = self.record_of(query)
        if query["providerNSA"] != self.name:
            self.refuse(query, "WRONG_PROVIDER")
        elif "connectionId" in query and record is None:
            self.refuse(query, "NONEXISTENT")
        else:
            answer = getattr(self, query["kind"])(query, record)
            if answer is not None:
                self.caused.append(message(query["kind"] + "Confirmed", *self.header(query), **answer))

    def querySummary(self, query, record):
        of = [record] if record else [own for own in self.records if own["owner"] == query["requesterNSA"]]
        return {"more": len(of) > MOST_SUMMARIES, "reservations": [self.summary(own) for own in of[:MOST_SUMMARIES]]}

    def summary(self, record):
        last = record["committed"][-1] if record["committed"] else {}
        row = {
            **self.states(record),
            "active": self.status(record)["active"],
            "sourceSTP": record["source"],
            "destSTP": record["dest"],
            "directionality": record["directionality"],
            "globalReservationId": record["texts"]["globalReservationId"],
            "description": record["texts"]["description"],
            **{key: last.get(key) for key in ("capacity", "startTime", "endTime", "version")},
        }
        return {key: value for key, value in row.items() if value is not None}

    def states(self, record):
        states = {"reservationState": "Reserve", "provisionState": "Provision", "lifecycleState": "Lifecycle"}
        return {"connectionId": record["id"], **{key: record[machine] for key, machine in states.items()}}

    def queryRecursive(self, _query, record):
        return self.nested(record, [])

    def nested(self, record, below):
        """The record's own row, and behind it what each child told, one deeper: its rows, and whether it left some out."""
        version = {"version": record["committed"][-1]["version"]} if record["committed"] else {}
        own = {**self.states(record), "depth": 0, "providerNSA": self.name, **version}
        told = [{**row, "depth": row["depth"] + 1} for rows, _ in below for row in rows]
        rows = [own, *(row for row in told if row["depth"] <= GREATEST_DEPTH)]
        is_left_out = len(rows) < 1 + len(told) or len(rows) > MOST_NESTED
        more = is_left_out or any(child_more for _, child_more in below)
        return {"connectionId": record["id"], "more": more, "reservations": rows[:MOST_NESTED]}

    def queryNotification(self, query, record):
        return self.numbered(query, record, "notifications", "told", "otificationId", "startN", "endN")

    def queryResult(self, query, record):
        return self.numbered(query, record, "results", "outcomes", "esultId", "startR", "endR")

    def numbered(self, query, record, name, kept, key, start, end):
        first, last = query.get(start + key, 1), query.get(end + key, 2**64 - 1)
        number = start[-1].lower() + key
        within = [row for row in record[kept] if first <= row[number] <= last]
        return {"connectionId": record["id"], "more": len(within) > MOST_NUMBERED, name: within[:MOST_NUMBERED]}

    def header(self, request):
        return request["correlationId"], request["requesterNSA"], request["providerNSA"]

    def new_record(self, request):
        record = {
            "number": len(self.records),
            "id": self.draw(),
            "owner": request["requesterNSA"],
            "source": request["sourceSTP"],
            "dest": request["destSTP"],
            "directionality": request.get("directionality", "Bidirectional"),
            "texts": {key: request.get(key) for key in ("symmetricPath", "globalReservationId", "description")},
            "committed": [],
            "pending": None,
            "attempt": None,
            "deadline": None,
            "mixed": False,
            "told": [],
            "outcomes": [],
            "Reserve": "ReserveStart",
            "Provision": "Released",
            "Lifecycle": "Created",
            "asked": {"Reserve": None, "Provision": None, "Lifecycle": None},
            "children": [],
        }
        self.records.append(record)
        return record

    def move(self, record, machine, event, /, **keys):
        """Moves a machine by its row, and causes the row's message."""
        record[machine], kind = row(self.side, machine, record[machine], event)
        if kind == "reserveConfirmed":
            keys = {**record["pending"], **record["texts"], "directionality": record["directionality"]}
            keys = {**keys, "sourceSTP": record["source"], "destSTP": record["dest"]}
        if kind == "reserveCommitConfirmed":
            record["committed"].append(record["pending"])
        if record["Reserve"] not in PENDING:
            record["pending"] = None
        if kind in TOLD:
            self.tell(record, kind, **keys)
        elif kind is not None:
            self.send(record, kind, record["asked"][machine], **keys)
            record["asked"][machine] = record["asked"][machine] if kind == "reserveResponse" else None

    def send(self, record, kind, correlation, /, **keys):
        """Sends a message on a record to its owner."""
        if kind in OUTCOMES:
            outcome = {"correlationId": correlation, "kind": kind, "timeStamp": self.now}
            record["outcomes"].append({**outcome, "resultId": len(record["outcomes"]) + 1})
        self.caused.append(message(kind, correlation, record["owner"], self.name, connectionId=record["id"], **keys))

    def tell(self, record, kind, /, **keys):
        """Sends a notification, with its number."""
        correlation = record["attempt"] if kind == "reserveTimeout" else self.draw()
        stamp = {"notificationId": len(record["told"]) + 1, "timeStamp": self.now}
        record["told"].append({"correlationId": correlation, "kind": kind, **stamp})
        self.send(record, kind, correlation, **stamp, **keys)

    def announce(self, record, before):
        """Tells a change of the data plane since then."""
        after = self.status(record)
        if is_announced(before, after):
            self.tell(record, "dataPlaneStateChange", **after)

    def end_time(self, record):
        if record["Lifecycle"] == "Created" and record["committed"] and record["committed"][-1]["endTime"] <= self.now:
            self.move(record, "Lifecycle", "EndTime")

    def end(self, record):
        """Answers what is open in Terminating, and ends the record."""
        gone = {"errorId": "GONE", "nsaId": self.name}
        if record["Reserve"] == "ReserveChecking":
            self.move(record, "Reserve", "Lack", **gone)
        elif record["Reserve"] == "ReserveCommitting":
            self.move(record, "Reserve", "Spoiled", **gone)
        elif record["Reserve"] == "ReserveAborting":
            self.move(record, "Reserve", "Freed")
        if record["Provision"] in WAITING["Provision"]:
            self.move(record, "Provision", "Spoiled", **gone)
        self.move(record, "Lifecycle", "Done")


class Provider(Server):
    side = "Provider"

    def __init__(self, number, name, hold, points):
        """The points are the capacities of its own, by name: each a dictionary by the flows that it has."""
        super().__init__(number, name)
        self.hold = hold
        self.points = points

    def take(self, of):
        if of["kind"] in QUERIES:
            self.take_query(of)
        elif of["kind"] in REQUESTS:
            self.take_request(of)

    def is_seen(self, of):
        """What is no request is never counted as seen here."""
        return of["kind"] in REQUESTS and super().is_seen(of)

    def hand_on(self, _record, _kind):
        """A provider does the work itself, later."""

    def status(self, record):
        if not record["committed"]:
            return IDLE
        last = record["committed"][-1]
        flows = record["Provision"] == "Provisioned" and record["Lifecycle"] == "Created"
        return {"active": flows and covers(last, self.now), "version": last["version"], "versionConsistent": True}

    def has_work(self, record, machine):
        if record["Lifecycle"] in ("Terminating", "Terminated"):
            return machine == "Lifecycle" and record["Lifecycle"] == "Terminating"
        return machine != "Lifecycle" and record[machine] in WAITING[machine]

    def waiting_work(self):
        for record in self.records:
            for machine in ("Reserve", "Provision", "Lifecycle"):
                if self.has_work(record, machine):
                    return record["number"], machine
        return None

    def work(self, number, machine):
        if number >= len(self.records) or not self.has_work(self.records[number], machine):
            return
        record = self.records[number]
        before = self.status(record)
        if machine == "Lifecycle":
            self.end(record)
        elif machine == "Provision" or record["Reserve"] == "ReserveCommitting":
            self.move(record, machine, "Done")
        elif record["Reserve"] == "ReserveAborting":
            self.move(record, machine, "Freed")
        else:
            self.try_to_hold(record)
        self.announce(record, before)

    def try_to_hold(self, record):
        lack = {"errorId": "PASSED"} if record["pending"]["endTime"] <= self.now else self.first_lack(record)
        if lack is not None:
            self.move(record, "Reserve", "Lack", nsaId=self.name, **lack)
            return
        self.move(record, "Reserve", "Fit")
        record["deadline"] = self.now + self.hold

    def first_lack(self, record):
        """The first second, and there the source before the destination, and in before out, at which it doesn't fit."""
        pending = record["pending"]
        others = [other for other in self.records if other is not record]
        for second in self.rises(others, pending):
            for point, flow in self.booked(record):
                load, most = sum(demand(other, point, flow, second) for other in others), self.points[point][flow]
                if load + pending["capacity"] > most:
                    direction = {} if flow == "Both" else {"direction": flow.lower()}
                    keys = {"capacity": most, "load": load, "second": second, "stp": point, **direction}
                    return {"errorId": "BANDWIDTH", **keys}
        return None

    def booked(self, record):
        """What a record books, in the order in which lacks are looked for."""
        ends = record["source"], record["dest"]
        return [(point, flow) for point in ends for flow in self.points[point] if books(record, point, flow)]

    def rises(self, others, asked):
        """The seconds of a schedule at which a load can rise: its first, and where another's begins."""
        starts = {c["startTime"] for other in others for c in [*other["committed"][-1:], other["pending"]] if c}
        return sorted({asked["startTime"]} | {second for second in starts if covers(asked, second)})

    def tick(self, second):
        before = [self.status(record) for record in self.records]
        self.now = second
        for record in self.records:
            if record["Lifecycle"] not in ("Terminating", "Terminated"):
                if record["Reserve"] == "ReserveHeld" and record["deadline"] <= second:
                    origin = {"originatingConnectionId": record["id"], "originatingNSA": self.name}
                    self.move(record, "Reserve", "HoldEnd", timeoutValue=self.hold, **origin)
                self.end_time(record)
            self.announce(record, before[record["number"]])

    def force(self, number):
        if number >= len(self.records) or self.records[number]["Lifecycle"] != "Created":
            return
        record = self.records[number]
        before = self.status(record)
        origin = {"originatingConnectionId": record["id"], "originatingNSA": self.name}
        self.move(record, "Lifecycle", "Force", event="forcedEnd", **origin)
        self.announce(record, before)


def new_view(child, source, dest):
    return {
        "child": child,
        "source": source,
        "dest": dest,
        "connection": None,
        "phase": "Idle",
        "before": "Idle",
        "attempt": None,
        "pending": None,
        "committed": [],
        "error": None,
        "provision_error": None,
        "gone": False,
        "plane": IDLE,
        "plane_notice": 0,
        # The unanswered requests: correlationId and kind.
        "asked": {"Reserve": None, "Provision": None, "Lifecycle": None},
    }


def ask(view, parent, correlation, kind, **keys):
    """Asks the child of a view: a reserve is a first one where it brings a source, else it names the connection."""
    view["asked"][EVENTS[kind][0]] = (correlation, kind)
    phases = {"reserve": "Reserving", "reserveCommit": "Committing", "reserveAbort": "Aborting"}
    if kind in phases:
        view["before"], view["phase"] = view["phase"], phases[kind]
    if kind == "reserve":
        view["attempt"], view["error"] = correlation, None
    if kind in ("provision", "release"):
        view["provision_error"] = None
    return message(kind, correlation, parent, view["child"], connectionId=view["connection"], **keys)


def ask_reserve(view, parent, correlation, criteria, service):
    """Without a connection it is a first reserve, with the view's points and the service, else a modification."""
    keys = dict(criteria)
    if view["connection"] is None:
        keys.update(service, sourceSTP=view["source"], destSTP=view["dest"])
    return ask(view, parent, correlation, "reserve", **keys)


def take(view, of):
    """What a view makes of a message: Ignored, Learnt, Answered, TimedOut, Ended or Plane."""
    kind, correlation = of["kind"], of["correlationId"]
    if kind == "reserveResponse" and view["attempt"] == correlation and view["connection"] is None:
        view["connection"] = of["connectionId"]
        return "Learnt"
    if kind == "reserveTimeout" and view["attempt"] == correlation and view["phase"] in ("Reserving", "Held"):
        view["connection"] = of["connectionId"]
        view["phase"], view["error"], view["pending"] = "TimedOut", "TIMEOUT", None
        view["asked"]["Reserve"] = None
        return "TimedOut"
    named = view["connection"] is not None and of.get("connectionId") == view["connection"]
    if kind == "errorEvent" and named:
        return "Ended"
    if kind == "dataPlaneStateChange" and named and of["notificationId"] > view["plane_notice"]:
        view["plane"] = {key: of[key] for key in ("active", "version", "versionConsistent")}
        view["plane_notice"] = of["notificationId"]
        return "Plane"
    for machine, asked in view["asked"].items():
        if asked is not None and asked[0] == correlation and kind in ANSWERED_BY[asked[1]]:
            view["asked"][machine] = None
            take_answer(view, machine, of)
            return "Answered"
    return "Ignored"


def take_answer(view, machine, of):
    kind = of["kind"]
    if kind == "error" and machine == "Reserve":
        view["phase"], view["error"] = view["before"], of["errorId"]
        view["attempt"] = view["attempt"] if view["phase"] == "Held" else None
    elif kind == "error" and machine == "Provision":
        view["provision_error"] = of["errorId"]
    elif kind == "error":
        view["error"] = of["errorId"]
    elif kind == "reserveConfirmed":
        view["connection"], view["phase"], view["pending"] = of["connectionId"], "Held", of["version"]
    elif kind == "reserveFailed":
        view["connection"], view["phase"], view["error"] = of["connectionId"], "Failed", of["errorId"]
    elif kind == "reserveCommitConfirmed":
        view["committed"].append(view["pending"])
        view["phase"], view["pending"], view["attempt"], view["error"] = "Idle", None, None, None
    elif kind == "reserveCommitFailed":
        view["phase"], view["pending"], view["attempt"], view["error"] = "Idle", None, None, of["errorId"]
    elif kind == "reserveAbortConfirmed":
        view["phase"], view["pending"], view["attempt"], view["error"] = "Idle", None, None, None
    elif machine == "Provision":
        view["provision_error"] = None
    else:
        view["gone"] = True


# A child that answered an error, or couldn't be asked: no rows, and some may be missing.
NOTHING_TOLD = ([], True)


class Aggregator(Server):
    side = "Aggregator"

    def __init__(self, number, name, points, find):
        """All points of the topology, and `find`, which gives the segments (child, entry, exit) of a path, or None."""
        super().__init__(number, name)
        self.points = points
        self.find = find
        self.sent = []
        # The queries that wait for children: of each child the correlationId that it is asked under, or what it has told.
        self.open_queries = []

    def status(self, record):
        return joined([view["plane"] for view in record["children"]])

    def take(self, of):
        if of["kind"] in QUERIES:
            self.take_query(of)
            return
        if of["kind"] in REQUESTS:
            self.take_request(of)
            return
        answers = self.answers_below(of)
        for record in self.records:
            for view in record["children"]:
                if view["child"] == of["providerNSA"]:
                    self.offer(record, view, of)
        self.caused += answers

    def queryRecursive(self, query, record):
        """Asks the children whose connections are known; where there is none it is answered at once."""
        known = [view for view in record["children"] if view["connection"] is not None]
        if not known:
            return self.nested(record, [NOTHING_TOLD for _ in record["children"]])
        below = []
        for view in record["children"]:
            if view["connection"] is None:
                below.append(NOTHING_TOLD)
            else:
                request = message("queryRecursive", self.draw(), self.name, view["child"], connectionId=view["connection"])
                self.send_down(record, request)
                below.append(request["correlationId"])
        self.open_queries.append({"query": query, "record": record, "below": below})
        return None

    def answers_below(self, of):
        """The answer to the query that waited for this message alone; a message that no query waits for is left."""
        if of["kind"] not in ("queryRecursiveConfirmed", "error"):
            return []
        query = next((query for query in self.open_queries if of["correlationId"] in query["below"]), None)
        if query is None:
            return []
        told = NOTHING_TOLD if of["kind"] == "error" else (of["reservations"], of["more"])
        query["below"][query["below"].index(of["correlationId"])] = told
        if any(isinstance(part, str) for part in query["below"]):
            return []
        self.open_queries.remove(query)
        answer = self.nested(query["record"], query["below"])
        return [message("queryRecursiveConfirmed", *self.header(query["query"]), **answer)]

    def hand_on(self, record, kind):
        """Hands a request that was taken on to the children, and moves where none has to be waited for."""
        if kind == "reserve":
            path = [] if record["children"] else self.find(record["source"], record["dest"])
            if path is None:
                self.move(record, "Reserve", "Lack", errorId="NO_PATH", nsaId=self.name)
                return
            record["children"] += [new_view(*segment) for segment in path]
        for view in record["children"]:
            if kind == "reserve" or self.is_asked(view, kind):
                self.ask(record, view, kind)
        self.advance(record)

    def is_asked(self, view, kind):
        if kind == "reserveAbort" and view["phase"] not in ("Held", "Failed", "TimedOut"):
            return False
        return view["connection"] is not None and view["asked"][EVENTS[kind][0]] is None

    def ask(self, record, view, kind):
        correlation = self.draw()
        if kind == "reserve":
            service = dict(record["texts"])
            if record["directionality"] == "Unidirectional":
                service["directionality"] = "Unidirectional"
            request = ask_reserve(view, self.name, correlation, record["pending"], service)
        else:
            request = ask(view, self.name, correlation, kind)
        self.send_down(record, request)

    def send_down(self, record, request):
        """Sends a request to a child, which is late when it isn't acknowledged for long."""
        self.caused.append(request)
        self.sent.append({"request": request, "record": record["number"], "second": self.now, "is_told": False})

    def offer(self, record, view, of):
        """Gives a message to a view, and does what follows from it."""
        before, connection = self.status(record), view["connection"]
        taken = take(view, of)
        if taken == "Ignored":
            return
        if connection is None and view["connection"] is not None and record["Lifecycle"] == "Terminating":
            self.ask(record, view, "terminate")
        origin = {key: of.get(key) for key in ("originatingConnectionId", "originatingNSA")}
        lives = record["Lifecycle"] not in ("Terminating", "Terminated")
        if taken == "TimedOut" and record["Reserve"] == "ReserveHeld" and lives:
            self.move(record, "Reserve", "HoldEnd", timeoutValue=of["timeoutValue"], **origin)
        if taken == "Ended" and record["Lifecycle"] == "Created":
            self.move(record, "Lifecycle", "Force", event=of["event"], **origin)
        self.advance(record)
        self.announce(record, before)

    def advance(self, record):
        """Moves as soon as no child has an unanswered request of that machine."""
        views = record["children"]
        if record["Lifecycle"] == "Terminating":
            if all(view["gone"] or (view["connection"] is None and view["asked"]["Reserve"] is None) for view in views):
                self.end(record)
        elif record["Lifecycle"] != "Terminated":
            if all(view["asked"]["Reserve"] is None for view in views):
                self.advance_reservation(record, views)
            if all(view["asked"]["Provision"] is None for view in views):
                self.advance_provision(record, views)

    def advance_reservation(self, record, views):
        if record["Reserve"] == "ReserveChecking":
            lacking = [(view["child"], view["error"]) for view in views if view["phase"] != "Held"]
            self.move_by_children(record, "Reserve", ("Fit", "Lack"), lacking)
        elif record["Reserve"] == "ReserveCommitting":
            failed = [(view["child"], view["error"]) for view in views if view["error"] is not None]
            record["mixed"] = record["mixed"] or bool(failed)
            self.move_by_children(record, "Reserve", ("Done", "Spoiled"), failed)
        elif record["Reserve"] == "ReserveAborting":
            self.move(record, "Reserve", "Freed")

    def advance_provision(self, record, views):
        if record["Provision"] in WAITING["Provision"]:
            failed = [(view["child"], view["provision_error"]) for view in views if view["provision_error"] is not None]
            self.move_by_children(record, "Provision", ("Done", "Spoiled"), failed)

    def move_by_children(self, record, machine, events, failed):
        """The first event where no child failed, else the second, which names the first one that did."""
        if not failed:
            self.move(record, machine, events[0])
            return
        child, error = failed[0]
        self.move(record, machine, events[1], errorId="CHILD", nsaId=self.name, child=child, childErrorId=error or "CHILD")

    def tick(self, second):
        self.now = second
        late = [sent for sent in self.sent if not sent["is_told"] and sent["second"] + LATE <= second]
        late = [sent for sent in late if identity(sent["request"]) in self.waiting]
        for record in self.records:
            before = self.status(record)
            self.end_time(record)
            for sent in late:
                if sent["record"] == record["number"]:
                    sent["is_told"] = True
                    told = sent["request"]["correlationId"]
                    self.tell(record, "messageDeliveryTimeout", deliveryCorrelationId=told)
            self.announce(record, before)


class Requester(Agent):
    def __init__(self, number, name, provider):
        super().__init__(number, name)
        self.provider = provider
        self.views = {}

    def take(self, of):
        for view in self.views.values():
            take(view, of)

    def ask(self, words):
        """Answers sent, noid or outstanding=ID."""
        if words[0] in QUERIED:
            return self.query(*words)
        what, label = words[:2]
        kind = {"commit": "reserveCommit", "abort": "reserveAbort"}.get(what, what)
        if kind == "reserve" and label not in self.views:
            self.views[label] = new_view(self.provider, words[2], words[3])
        view = self.views.get(label)
        if view is None or (kind != "reserve" and view["connection"] is None):
            return "noid"
        asked = view["asked"][EVENTS[kind][0]]
        if asked is not None:
            return f"outstanding={asked[0]}"
        if kind == "reserve":
            numbers, service = (words[4:-1], {"directionality": "Unidirectional"}) if words[-1] == "one" else (words[4:], {})
            criteria = dict(zip(("capacity", "startTime", "endTime", "version"), numbers))
            self.caused.append(ask_reserve(view, self.name, self.draw(), criteria, service))
        else:
            self.caused.append(ask(view, self.name, self.draw(), kind))
        return "sent"

    def query(self, what, label=None, *numbers):
        """Queries leave the views as they are; a summary may be of all connections."""
        view = self.views.get(label)
        if label is not None and (view is None or view["connection"] is None):
            return "noid"
        kind, name = QUERIED[what]
        keys = {"connectionId": view["connection"]} if view else {}
        keys.update(zip(("start" + name, "end" + name), numbers))
        self.caused.append(message(kind, self.draw(), self.name, self.provider, **keys))
        return "sent"
