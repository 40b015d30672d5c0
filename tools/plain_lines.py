"""Which texts are the printed spelling of a message or an acknowledgement, written from the tables of their keys alone.

A number of JSON is read as its digits, so that one beyond its range is seen, and one with a sign or a fraction is none. The spelling of
what is read has to be the text again: compact, its keys in byte order, ids in lower case, times of schedules as date-times, and only what
of the text isn't ASCII, a quote or a backslash written otherwise than it is.
"""
import json
import re
import uuid

from plain_agents import LAST_SECOND, LIFECYCLE, PROVISION, RESERVE, spelled, timed

NAME = re.compile(r"[!#-\[\]-~]{1,128}")
ID = re.compile(r"urn:uuid:[0-9a-f]{8}(-[0-9a-f]{4}){3}-[0-9a-f]{12}")
ERRORS = (
    "PAYLOAD VERSION WRONG_PROVIDER NONEXISTENT GONE INVALID_TRANSITION VERSION_LOW UNKNOWN_STP SCHEDULE BANDWIDTH PASSED NO_PATH CHILD "
    "TIMEOUT"
).split()


def is_number(least, greatest):
    return lambda value: type(value) is int and least <= value <= greatest


def is_one_of(*values):
    return lambda value: any(value == one and type(value) is type(one) for one in values)


def is_text(most):
    return lambda value: isinstance(value, str) and len(value.encode()) <= most


def is_name(value):
    return isinstance(value, str) and NAME.fullmatch(value) is not None


def is_id(value):
    return isinstance(value, str) and ID.fullmatch(value) is not None and str(uuid.UUID(value)) == value[9:]


def is_any_kind(value):
    return isinstance(value, str) and value in KEYS


def states_of(rows):
    return {state for row in rows for state in (row[0], row[2])}


SECOND, COUNT, CAPACITY = is_number(0, LAST_SECOND), is_number(0, 2**64 - 1), is_number(1, 1_099_511_627_776)
VERSION, FLAG = is_number(0, 2_147_483_647), is_one_of(True, False)
DIRECTIONALITY = is_one_of("Bidirectional", "Unidirectional")
# A key with a `?` may be absent.
HEADER = {"correlationId": is_id, "kind": is_any_kind, "providerNSA": is_name, "requesterNSA": is_name}
TEXTS = {"description?": is_text(256), "globalReservationId?": is_text(128), "symmetricPath?": FLAG}
ASKED = {"capacity": CAPACITY, "endTime": SECOND, "startTime?": SECOND}
SCHEDULE = {"capacity": CAPACITY, "endTime": SECOND, "startTime": SECOND}
CONNECTION = {"connectionId": is_id}
NOTICE = {**CONNECTION, "notificationId": COUNT, "timeStamp": SECOND}
ORIGIN = {**NOTICE, "originatingConnectionId": is_id, "originatingNSA": is_name}
STATES = {
    "lifecycleState": is_one_of(*states_of(LIFECYCLE)),
    "provisionState": is_one_of(*states_of(PROVISION)),
    "reservationState": is_one_of(*states_of(RESERVE)),
}
SUMMARY = {
    **CONNECTION, **STATES, "active": FLAG, "capacity?": CAPACITY, "description?": is_text(256), "destSTP": is_name,
    "directionality": DIRECTIONALITY, "endTime?": SECOND, "globalReservationId?": is_text(128), "sourceSTP": is_name,
    "startTime?": SECOND, "version?": VERSION,
}
NESTED = {**CONNECTION, **STATES, "depth": is_number(0, 255), "providerNSA": is_name, "version?": VERSION}
COUNTED = {"correlationId": is_id, "kind": is_any_kind, "timeStamp": SECOND}
# What an exception has besides errorId and nsaId.
FURTHER = {
    "BANDWIDTH": {"capacity": CAPACITY, "direction?": is_one_of("in", "out"), "load": COUNT, "second": SECOND, "stp": is_name},
    "CHILD": {"child": is_name, "childErrorId": is_one_of(*ERRORS)},
}
REFUSED = {"errorId": is_one_of(*ERRORS), "nsaId": is_name}


def are_rows(keys):
    return lambda value: isinstance(value, list) and all(isinstance(row, dict) and has_keys(row, keys) for row in value)


KEYS = {
    "reserve": {
        **ASKED, **TEXTS, "connectionId?": is_id, "destSTP?": is_name, "directionality?": DIRECTIONALITY, "sourceSTP?": is_name,
        "version?": VERSION,
    },
    "reserveConfirmed": {
        **SCHEDULE, **TEXTS, **CONNECTION, "destSTP": is_name, "directionality": DIRECTIONALITY, "sourceSTP": is_name, "version": VERSION,
    },
    **dict.fromkeys(("reserveFailed", "reserveCommitFailed"), {**CONNECTION, **REFUSED}),
    "error": {"connectionId?": is_id, **REFUSED},
    **dict.fromkeys(
        (
            "reserveResponse", "reserveCommit", "reserveCommitConfirmed", "reserveAbort", "reserveAbortConfirmed", "provision",
            "provisionConfirmed", "release", "releaseConfirmed", "terminate", "terminateConfirmed", "queryRecursive",
        ),
        CONNECTION,
    ),
    "reserveTimeout": {**ORIGIN, "timeoutValue": is_number(1, 86_400)},
    "errorEvent": {**ORIGIN, "event": is_one_of("forcedEnd")},
    "dataPlaneStateChange": {**NOTICE, "active": FLAG, "version": VERSION, "versionConsistent": FLAG},
    "messageDeliveryTimeout": {**NOTICE, "deliveryCorrelationId": is_id},
    "querySummary": {"connectionId?": is_id},
    "queryNotification": {**CONNECTION, "endNotificationId?": COUNT, "startNotificationId?": COUNT},
    "queryResult": {**CONNECTION, "endResultId?": COUNT, "startResultId?": COUNT},
    "querySummaryConfirmed": {"more": FLAG, "reservations": are_rows(SUMMARY)},
    "queryRecursiveConfirmed": {**CONNECTION, "more": FLAG, "reservations": are_rows(NESTED)},
    "queryNotificationConfirmed": {**CONNECTION, "more": FLAG, "notifications": are_rows({**COUNTED, "notificationId": COUNT})},
    "queryResultConfirmed": {**CONNECTION, "more": FLAG, "results": are_rows({**COUNTED, "resultId": COUNT})},
}


def has_keys(value, keys):
    """Exactly these keys, each in its form; those with a `?` may be absent."""
    known = {key.removesuffix("?"): form for key, form in keys.items()}
    needed = {key for key in keys if not key.endswith("?")}
    return needed <= value.keys() <= known.keys() and all(known[key](what) for key, what in value.items())


def keys_of(value):
    kind = value.get("kind")
    if kind == "ack":
        return {**HEADER, "kind": is_one_of("ack"), "of": is_any_kind}
    if not is_any_kind(kind):
        return None
    error = value.get("errorId")
    return {**HEADER, **KEYS[kind], **(FURTHER.get(error, {}) if "errorId" in KEYS[kind] and isinstance(error, str) else {})}


def is_whole_reserve(value):
    """A first reserve names both points, and points that are named both differ."""
    points = value.get("sourceSTP"), value.get("destSTP")
    return (None not in points or "connectionId" in value) and (points[0] is None or points[0] != points[1])


def parcel_of(text):
    """The keys of the message or acknowledgement that is printed so, or None."""
    try:
        text.encode()
        value = timed(json.loads(text))
    except (ValueError, RecursionError):
        return None
    if not isinstance(value, dict):
        return None
    keys = keys_of(value)
    is_good = keys is not None and has_keys(value, keys) and (value["kind"] != "reserve" or is_whole_reserve(value))
    return value if is_good and spelled(value) == text else None
