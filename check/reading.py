"""What requests are made of: names, locations, segments of paths, queries, and bodies of JSON with their first bad
field. Texts are bytes in UTF-8 throughout."""

import json
import math
import re
from urllib.parse import unquote_to_bytes

STATUS_AND_TYPE = {
    "Unauthenticated": (401, "NotAuthorizedException"),
    "NoCatalogue": (404, "NotFoundException"),
    "Forbidden": (403, "ForbiddenException"),
    "NoNamespace": (404, "NoSuchNamespaceException"),
    "NoTable": (404, "NoSuchTableException"),
    "NoView": (404, "NoSuchViewException"),
    "NoSuchRole": (404, "NotFoundException"),
    "NameTaken": (409, "AlreadyExistsException"),
    "NotEmpty": (409, "NamespaceNotEmptyException"),
    "KeyTwice": (422, "UnprocessableEntityException"),
    "TableTwice": (400, "BadRequestException"),
    "RequirementFailed": (409, "CommitFailedException"),
    "UpdateRefused": (400, "BadRequestException"),
    "BadLocation": (400, "BadRequestException"),
    "LocationOutside": (400, "BadRequestException"),
    "LocationOverlap": (400, "BadRequestException"),
    "TooManyTokens": (429, "TooManyRequestsException"),
    "Unsupported": (406, "UnsupportedOperationException"),
    "Limit": (400, "BadRequestException"),
    "Reserved": (400, "BadRequestException"),
    "TokenUnknown": (401, "NotAuthorizedException"),
    "NotCovered": (403, "ForbiddenException"),
    "NotWritable": (403, "ForbiddenException"),
    "NoObject": (404, "NotFoundException"),
    "ObjectThere": (409, "AlreadyExistsException"),
    "TooLong": (413, "BadRequestException"),
    "SpaceFull": (503, "ServiceUnavailableException"),
    "Unreadable": (400, "BadRequestException"),
    "No route": (404, "NotFoundException"),
    "Wrong method": (405, "BadRequestException"),
}


class Refused(Exception):
    """A refusal with its message, its status and the body that tells it."""

    def __init__(self, rule, message):
        self.message = message
        self.status, kind = STATUS_AND_TYPE[rule]
        self.body = compact({"error": {"code": self.status, "message": message, "type": kind}})


def refuse(rule, told=None):
    """Refuses by a rule, and tells what it is about."""
    raise Refused(rule, rule if told is None else f"{rule}: {told.decode()}")


def compact(value):
    """A value of JSON, whose texts may be bytes, without blanks and with the keys of objects in byte order."""
    if isinstance(value, dict):
        pairs = sorted((key if isinstance(key, bytes) else key.encode(), part) for key, part in value.items())
        return "{" + ",".join(f"{compact(key)}:{compact(part)}" for key, part in pairs) + "}"
    if isinstance(value, (list, tuple)):
        return "[" + ",".join(compact(part) for part in value) + "]"
    return json.dumps(value.decode() if isinstance(value, bytes) else value, ensure_ascii=False)


def is_name(name):
    return 1 <= len(name) <= 128 and all(byte >= 0x20 and byte != 0x7F for byte in name)


def is_plain(name):
    return re.fullmatch(rb"[A-Za-z0-9_-]{1,128}", name) is not None


def is_namespace(levels):
    return 1 <= len(levels) <= 16 and all(is_name(level) for level in levels)


def dotted(levels):
    return b".".join(levels)


def refuse_location(table, why):
    raise Refused("BadLocation", f"BadLocation of table {table}: {why}")


def location_of(text, table=0):
    """The segments of a location's text, of the table at this place. What is none is refused."""
    scheme = b"lake://"
    if text.startswith(scheme) and text[len(scheme) :].endswith(b"/"):
        text = text[:-1]
    if len(text) > 1024:
        refuse_location(table, "TooLong")
    if not text.startswith(scheme):
        refuse_location(table, "BadScheme")
    return location_below(text[len(scheme) :].split(b"/"), table)


def location_below(segments, table=0):
    """The location of these segments. What is none is refused."""
    if len(location_text(segments)) > 1024:
        refuse_location(table, "TooLong")
    for segment in segments:
        if not segment:
            refuse_location(table, "EmptySegment")
        if segment in (b".", b".."):
            refuse_location(table, "DotSegment")
        if any(byte < 0x20 or byte in b"/\x7f" for byte in segment):
            refuse_location(table, "ControlByte")
    return segments


def covers(upper, lower):
    """Whether a location is another one, or that one lies below it."""
    return lower[: len(upper)] == upper


def location_text(segments):
    return b"lake://" + b"/".join(segments)


def is_utf8(text):
    try:
        text.decode("utf-8")
    except UnicodeDecodeError:
        return False
    return True


def segment_text(segment):
    """The text of a segment of a path, each of whose `%` stands before two hexadecimal digits."""
    text = unquote_to_bytes(segment)
    if re.search(rb"%(?![0-9A-Fa-f]{2})", segment) or not is_utf8(text):
        refuse("Unreadable", b"path")
    return text


def plain_segment(segment):
    name = segment_text(segment)
    if not is_plain(name):
        refuse("Unreadable", b"path")
    return name


def name_segment(segment):
    name = segment_text(segment)
    if not is_name(name):
        refuse("Unreadable", b"path")
    return name


def namespace_segment(segment):
    levels = tuple(segment_text(segment).split(b"\x1f"))
    if not is_namespace(levels):
        refuse("Unreadable", b"path")
    return levels


def form_pairs(text):
    """The pairs of a form or a query (URL Standard, application/x-www-form-urlencoded parsing), decoded as bytes."""
    pieces = (piece.partition(b"=") for piece in text.split(b"&") if piece)
    return [tuple(unquote_to_bytes(part.replace(b"+", b" ")) for part in (key, value)) for key, _, value in pieces]


def query_value(query, key):
    """The last value of a key, or none."""
    values = [value for found, value in form_pairs(query) if found == key]
    if values and not is_utf8(values[-1]):
        refuse("Unreadable", key)
    return values[-1] if values else None


# Each reader below takes a value of JSON and the path to it, and refuses the first bad field.


def unreadable(path):
    refuse("Unreadable", path.encode())


def no_constant(word):
    raise ValueError(word)


def finite(word):
    """The number that digits write, unless it is too large for a float. Whole ones without a fraction, an exponent or a
    sign before a zero are whole numbers, and all others floats."""
    if math.isinf(float(word)):
        raise ValueError(word)
    return float(word) if set(word) & set(".eE") or word == "-0" else int(word)


def depth_of(value):
    """How many arrays and objects are open at the deepest place of a value, whose objects are tuples of pairs."""
    depth, layer = 0, [value]
    while held := [one for one in layer if isinstance(one, (tuple, list))]:
        depth += 1
        layer = [item for one in held for item in ([part for _, part in one] if isinstance(one, tuple) else one)]
    return depth


def body_of(content):
    """The object that a body holds, in which the last of equal keys counts. A surrogate stands in it only in a pair, and
    no part of it is too deep, nor of what an equal key takes the place of."""
    try:
        numbers = {"parse_constant": no_constant, "parse_float": finite, "parse_int": finite}
        body = content.decode("utf-8")
        whole = json.loads(body, object_pairs_hook=tuple, **numbers)
        json.dumps(whole, ensure_ascii=False).encode("utf-8")
    except (ValueError, RecursionError):
        unreadable("body")
    if depth_of(whole) > 127:
        unreadable("body")
    return object_at(json.loads(body, **numbers), "body")


def object_at(value, path):
    if not isinstance(value, dict):
        unreadable(path)
    return value


def text(value, path):
    if not isinstance(value, str):
        unreadable(path)
    return value.encode()


def meeting(test):
    """The reader of a text that meets a test."""

    def read(value, path):
        found = text(value, path)
        if not test(found):
            unreadable(path)
        return found

    return read


def levels(value, path):
    if not isinstance(value, list) or not all(isinstance(level, str) for level in value):
        unreadable(path)
    found = tuple(level.encode() for level in value)
    if not is_namespace(found):
        unreadable(path)
    return found


def texts(value, path):
    if not isinstance(value, list):
        unreadable(path)
    return [text(item, f"{path}[{place}]") for place, item in enumerate(value)]


def text_map(value, path):
    members = object_at(value, path)
    keys = sorted(members, key=str.encode)
    return {key.encode(): text(members[key], under(path, key)) for key in keys}


def under(path, key):
    return f"{path}.{key}" if path else key


def required(value, key, read, path=""):
    if key not in value:
        unreadable(under(path, key))
    return read(value[key], under(path, key))


def optional(value, key, read, absent, path=""):
    if value.get(key) is None:
        return absent
    return read(value[key], under(path, key))
