"""What a catalogue's rows are, what a request is, and what isn't known of either until the program tells it."""

import json
import re
from dataclasses import dataclass, field

from reading import body_of, compact, dotted, is_plain, location_text, meeting, refuse
from updates import metadata_file

plain = meeting(is_plain)
SESSION_LIFE = 3_600_000
TOKEN_LIFE = 900_000


class Moment:
    """A moment of the program's clock, which may be known."""

    def __init__(self, told=None):
        self.told = told

    def learn(self, answered):
        if self.told is None:
            self.told = answered if type(answered) is int else "no moment was told"
        return self.told

    def is_past(self, former, life):
        """Whether so much time went by since a former moment, as far as the two are known."""
        return None not in (self.told, former.told) and self.told - former.told >= life


class Expiry:
    """When a storage token of a moment expires, as its answer tells it."""

    def __init__(self, moment):
        self.moment = moment

    def learn(self, answered):
        is_told = isinstance(answered, str) and re.fullmatch("[0-9]{6,16}", answered)
        told = self.moment.learn(int(answered) - TOKEN_LIFE if is_told else None)
        return str(told + TOKEN_LIFE) if type(told) is int else told


@dataclass
class Principal:
    id: int
    client_id: bytes
    digest: bytes


@dataclass
class Catalog:
    id: int
    base: list
    allowed: list
    properties: dict
    roles: dict
    namespaces: dict = field(default_factory=dict)


@dataclass
class Namespace:
    id: int
    properties: dict
    tables: dict = field(default_factory=dict)
    views: dict = field(default_factory=dict)

    def parts(self, kind):
        """The tables or the views in it."""
        return {"table": self.tables, "view": self.views}[kind]


@dataclass
class Table:
    id: int
    location: list
    metadata: dict
    version: int = 0
    moves: int = 0

    def committed(self):
        return {"metadata": self.metadata, "metadata-location": metadata_file(self.metadata, self.version)}

    def loaded(self):
        return {"config": {}, **self.committed(), "storage-credentials": []}

    def credentials(self, config):
        """The members of an answer that a storage token stands in."""
        return {"storage-credentials": [{"config": config, "prefix": location_text(self.location)}]}

    def is_moved(self, former):
        return self.metadata["location"] != former.metadata["location"]


@dataclass
class View:
    id: int
    metadata: dict
    version: int = 0

    def loaded(self):
        place = metadata_file(self.metadata, self.version, "view-uuid")
        return {"metadata": self.metadata, "metadata-location": place}


@dataclass
class Session:
    principal: int
    scope: list | None
    opened: Moment


@dataclass
class StorageToken:
    """What a storage token was issued for: to a principal, of a table as it was then, for writing too or not."""

    principal: int
    table: int
    moves: int
    location: list
    is_writing: bool
    issued: Moment


@dataclass
class Request:
    """A request, with the token of its bearer, and the answer's body, from which what was drawn is read. Its moment is
    there once it was read."""

    method: str
    target: bytes
    bearer: str
    content: bytes
    answered: str = ""
    fields: tuple = ()
    action: str = ""
    moment: Moment | None = None

    @property
    def query(self):
        return self.target.partition(b"?")[2]

    def shown(self, value):
        """A value as JSON, in which moments that weren't told yet are those of the answer."""
        try:
            answered = json.loads(self.answered)
        except ValueError:
            answered = None
        return compact(with_moments(value, answered))

    @property
    def is_delegated(self):
        """Whether a storage token is asked for."""
        lists = [value for name, value in self.fields if name.lower() == "x-iceberg-access-delegation"]
        return any(word.strip(" \t").lower() == "vended-credentials" for value in lists for word in value.split(","))

    def body(self):
        return body_of(self.content)


def with_moments(value, answered):
    """A value in which moments that weren't told yet are those at their places in an answer."""
    if isinstance(value, (Moment, Expiry)):
        return value.learn(answered)
    if isinstance(value, dict):
        found = answered if isinstance(answered, dict) else {}
        return {key: with_moments(part, found.get(key)) for key, part in value.items()}
    if isinstance(value, list):
        found = answered if isinstance(answered, list) else []
        return [with_moments(*pair) for pair in zip(value, [*found, *[None] * len(value)])]
    return value


def refuse_missing(row, path):
    """Refuses a path that isn't there by its first part that isn't."""
    for depth in range(1, len(path) + 1):
        if path[:depth] not in row.namespaces:
            refuse("NoNamespace", dotted(path[:depth]))


def part_there(row, path, part, kind):
    """The table or the view of a name in a namespace of a catalogue that is there."""
    if part not in row.namespaces[path].parts(kind):
        refuse({"table": "NoTable", "view": "NoView"}[kind], dotted([*path, part]))
    return row.namespaces[path].parts(kind)[part]
