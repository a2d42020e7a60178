"""Random requests, most of which make sense, and some of which are odd in one place."""

import json
from random import Random
from urllib.parse import urlencode

from odd_values import ODD_VALUES, places_in
from messages import is_session
from privileges import GRANTABLE, PRIVILEGES
from random_clients import RandomClients, shown
from random_tables import RandomTables
from routes import CATALOG, MANAGEMENT, ROUTES

NAMES = {
    "prefix": ["lake", "lake", "lake", "sea", "pond"],
    "catalog": ["lake", "lake", "lake", "sea", "pond"],
    "principal": ["ann", "bob", "root"],
    "role": ["readers", "writers", "service_admin"],
    "catalog_role": ["reads", "reads", "writes", "catalog_admin"],
    "table": ["t", "t", "t", "u", "v"],
    "view": ["v", "v", "v", "w", "t"],
}
ODD_NAMES = ["a b", "é", "x" * 129, "a.b", "", "..", "A-_9"]
ODD_TABLES = ["..", ".", "a/b", "é x", "t\n", "x" * 129, ""]
LEVELS = ["a", "b", "c", "é x", "B"]
ODD_LEVELS = ["", "\x1f", "a\n", "x" * 129, "\x7f"]
KEYS = ["k1", "k2", "k3", "é", "default-base-location"]
VALUES = ["v", "w", "", "é\n"]
LOCATIONS = ["lake://b", "lake://b/x", "lake://c/", "lake://é/y z"]
ODD_LOCATIONS = ["lake://", "lake:///", "lake://b//", "lake://b/../c", "lake://b/.", "Lake://b", "", "lake://b/\n"]
TABLE_LOCATIONS = ["lake://b/t", "lake://b/t/", "lake://b/t/x", "lake://b/t1", "lake://b/x/u", "lake://c/t", "lake://d/t"]
TABLE_LOCATIONS += ["lake://é/y z/t", "lake://b", "lake://b/a/t", "lake://b/a/t/x", "lake://b/a", "lake://c/a/b"]
LONG_LOCATIONS = ["lake://" + "a" * 1017, "lake://" + "a" * 1018, "lake://" + "a" * 1017 + "/", "x" * 1025]
# Values of JSON at and past what is read: numbers by size, arrays by depth within a body, and surrogates.
ODD_TEXTS = ["1e308", "1e400", "-1e400", "1" + "0" * 308, "1" + "0" * 400, '"\\ud800\\udc00"', '"\\ud800"', '"\\udc00"']
ODD_TEXTS += ["[" * depth + "]" * depth for depth in (126, 127, 200)]
WAREHOUSES = ["", "warehouse", "x=1&warehouse=lake", "w%61rehouse=lake", "warehouse=%ff", "warehouse=la+ke"]
SNAPSHOTS = ["snapshots=all", "snapshots=refs", "snapshots=", "snapshots=x", "snapshots=refs&snapshots=all"]
PURGES = ["purgeRequested=true", "purgeRequested=false", "purgeRequested=", "purgeRequested=1"]
DELEGATIONS = ["vended-credentials", "remote-signing, Vended-Credentials", ",vended-credentials "]
ODD_DELEGATIONS = ["remote-signing", "vended", "", '"vended-credentials"', "vended credentials"]
PARENTS = ["", "parent=", "parent=%ff", "parent=%1F"]
SCOPES = ["ALL", "readers", "readers", "writers", "service_admin", "", "no one"]

# The bytes of objects, none of which are taken for JSON, and more bytes than an object has.
OBJECTS = [b"", b"PAR1", b"Obj\x01", bytes(range(256)), b"\r\n\r\n" * 5000]
TOO_LONG = b"a" * 8_388_609

# What every second seed begins with: a catalogue with tables, and a principal that may read their data.
LAKE = {"name": "lake", "properties": {"default-base-location": "lake://b"}}
SCHEMA = {"type": "struct", "fields": []}
OPENING = [
    ("POST", f"{MANAGEMENT}/catalogs", {"catalog": LAKE}),
    ("POST", f"{CATALOG}/lake/namespaces", {"namespace": ["a"]}),
    ("POST", f"{CATALOG}/lake/namespaces", {"namespace": ["B"]}),
    ("POST", f"{CATALOG}/lake/namespaces/a/tables", {"name": "t", "schema": SCHEMA}),
    ("POST", f"{CATALOG}/lake/namespaces/a/tables", {"name": "t0", "schema": SCHEMA}),
    ("POST", f"{CATALOG}/lake/namespaces/B/tables", {"name": "u", "schema": SCHEMA}),
    ("POST", f"{MANAGEMENT}/principals", {"principal": {"name": "ann"}}),
    ("POST", f"{MANAGEMENT}/principal-roles", {"principalRole": {"name": "readers"}}),
    ("PUT", f"{MANAGEMENT}/principals/ann/principal-roles", {"principalRole": {"name": "readers"}}),
    ("POST", f"{MANAGEMENT}/catalogs/lake/catalog-roles", {"catalogRole": {"name": "reads"}}),
    ("PUT", f"{MANAGEMENT}/principal-roles/readers/catalog-roles/lake", {"catalogRole": {"name": "reads"}}),
    (
        "PUT",
        f"{MANAGEMENT}/catalogs/lake/catalog-roles/reads/grants",
        {"grant": {"type": "catalog", "privilege": "TABLE_READ_DATA"}},
    ),
]

# How often a request of a method is asked, and one of these actions.
WEIGHTS = {"GET": 2, "HEAD": 2, "POST": 4, "PUT": 5, "DELETE": 0.7}
OFTEN = {"create_table": 8, "load_table": 8, "commit_table": 24, "commit_transaction": 12}
OFTEN |= {"load_credentials": 12, "get_object": 8, "head_object": 4, "put_object": 10, "delete_object": 3, "list_objects": 5}
OFTEN |= {"create_view": 8, "load_view": 8, "replace_view": 24}


def session_form(client_id, secret):
    """The form by which a client asks for a token."""
    pairs = {"grant_type": "client_credentials", "client_id": client_id, "client_secret": secret}
    return urlencode(pairs).encode()


class RandomRequests:
    """Requests of a seed, by clients that know the tokens and secrets that were given before."""

    def __init__(self, seed):
        self.random = Random(seed)
        self.tables = RandomTables(seed)
        self.clients = RandomClients(seed)
        self.known = ()
        self.tokens = []
        self.storage_tokens = []
        self.storage_token = ()
        self.secrets = {"root": "s3cr3t"}
        self.opening = self.opened() if seed % 2 else iter(())

    def seldom(self, often=0.05):
        return self.random.random() < often

    def pick(self, usual, odd, often=0.05):
        return self.random.choice(odd if self.seldom(often) else usual)

    def opened(self):
        """The requests that every second seed begins with, each once the one before was answered."""
        yield "POST", f"{CATALOG}/oauth/tokens", [], session_form("root", self.secrets["root"]), None
        for method, target, body in OPENING:
            fields = [("authorization", f"Bearer {self.tokens[0]}")]
            yield method, target, fields, json.dumps(body).encode(), self.tokens[0]
        for client_id, secret in list(self.secrets.items()):
            yield "POST", f"{CATALOG}/oauth/tokens", [], session_form(client_id, secret), None

    def next(self):
        """The method, target, fields, content and bearer of a request."""
        return next(self.opening, None) or self.picked()

    def picked(self):
        weights = [OFTEN.get(row[2], WEIGHTS[row[0]]) for row in ROUTES]
        method, path, action, *form = self.random.choices(ROUTES, weights)[0]
        self.known = self.clients.turn(action)
        known = self.storage_tokens[-self.random.choice([2, 40]) :] if "{*path}" in path else []
        self.storage_token = self.random.choice(known) if known and not self.seldom() else ()
        target = self.target_of(path, action)
        content = self.content_of(action, *form)
        if self.seldom(0.02):
            method = self.random.choice(["GET", "POST", "PUT", "DELETE", "HEAD", "PATCH", "get"])
        fields, bearer = self.bearer()
        if self.seldom(0.3 if action in ("create_table", "load_table") else 0.02):
            name = self.random.choice(["x-iceberg-access-delegation", "X-Iceberg-Access-Delegation"])
            fields = [*fields, (name, self.pick(DELEGATIONS, ODD_DELEGATIONS, 0.2))]
        return method, target, fields, content, bearer

    def learn(self, method, target, content, status, answered):
        """Has later requests know what a request was answered: tokens and secrets, tables and views."""
        given = json.loads(answered) if status < 300 and answered.startswith("{") else {}
        if is_session(answered):
            self.tokens.append(given["access_token"])
        if "credentials" in given:
            self.secrets[given["credentials"]["clientId"]] = given["credentials"]["clientSecret"]
        for part in given.get("storage-credentials", []):
            self.storage_tokens.append((part["config"]["lake.token"], part["prefix"]))
        self.clients.learn(method, target, content, status, answered)

    # Targets

    def target_of(self, path, action):
        parts = [self.segment(part[1:-1]) if part.startswith("{") else part for part in path.split("/")]
        target = "/".join(parts)
        if self.seldom(0.02):
            target = self.random.choice([target + "/", target + "//", target + "x", "/", "/api", "/" + target])
        query = self.query_of(action)
        return target if query is None else f"{target}?{query}"

    def segment(self, parameter):
        if parameter == "*path":
            return self.object_path()
        on = "view" if parameter == "view" else "table"
        known = dict(zip(("prefix", "namespace", on), self.known)) if not self.seldom(0.02) else {}
        if parameter == "namespace":
            return self.encoded("\x1f".join(known.get(parameter) or self.levels()))
        if parameter in known:
            return self.encoded(known[parameter])
        odd = ODD_TABLES if parameter in ("table", "view") else ODD_NAMES
        return self.encoded(self.pick(NAMES.get(parameter, ["t"]), odd))

    def object_path(self):
        """A path below the location that a storage token was issued for, mostly, or beside it."""
        places = [place for _, place in self.storage_tokens] or TABLE_LOCATIONS
        is_below = self.storage_token and not self.seldom(0.15)
        place = self.storage_token[1] if is_below else self.random.choice(places)
        *above, last = place.removeprefix("lake://").split("/")
        usual = [[*above, last, "x"], [*above, last, "d", "é y"], [*above, last]]
        odd = [above, [*above, last + "0"], [*above, last[:-1], "x"], [*above, last, ""], [*above, last, "..", "x"]]
        return "/".join(map(self.encoded, self.pick(usual, odd, 0.2)))

    def encoded(self, text):
        """A text as a segment, in which more bytes than need be may be encoded, and seldom wrongly."""
        found = ""
        for byte in text.encode():
            is_plain = chr(byte).isalnum() and byte < 0x80 or chr(byte) in "_-."
            found += chr(byte) if is_plain and not self.seldom(0.08) else self.random.choice(["%%%02X", "%%%02x"]) % byte
        return found + self.random.choice(["%", "%z1", "%ff", "%2"]) if self.seldom(0.01) else found

    def levels(self):
        count = self.pick([1, 1, 1, 2, 2, 3], [0, 16, 17], 0.03)
        return [self.pick(LEVELS, ODD_LEVELS, 0.015) for _ in range(count)]

    def query_of(self, action):
        if action == "get_config":
            named = f"warehouse={self.segment('catalog')}"
            return self.pick([named, named, f"warehouse=lake&{named}"], WAREHOUSES, 0.3)
        if action == "list_namespaces":
            named = f"parent={self.segment('namespace')}"
            return self.pick([None, named, f"parent=zz&{named}"], PARENTS, 0.3)
        if action in ("load_table", "drop_table"):
            return self.pick([None], SNAPSHOTS if action == "load_table" else PURGES, 0.3)
        return "x=y" if self.seldom(0.03) else None

    # Contents

    def content_of(self, action, form=None):
        if action == "open_session":
            return self.credentials()
        if action == "put_object":
            return self.pick(OBJECTS, [TOO_LONG], 0.003)
        if form is None:
            return b"xx" if self.seldom() else b""
        return self.printed(self.altered(self.made(form)))

    def made(self, form):
        """A value of a form, from which at times a key is absent that may be."""
        if isinstance(form, str):
            return self.pick(NAMES[form], ODD_NAMES) if form in NAMES else getattr(self, form)()
        kept = {key: part for key, part in form.items() if not (key.endswith("?") and self.seldom(0.25))}
        return {key.rstrip("?"): self.made(part) for key, part in kept.items()}

    def credentials(self):
        client_id = self.random.choice(list(self.secrets))
        secret = "zz" if self.seldom() else self.secrets[client_id]
        pairs = [("grant_type", "client_credentials"), ("client_id", client_id), ("client_secret", secret)]
        if self.seldom(0.5):
            words = [f"PRINCIPAL_ROLE:{self.random.choice(SCOPES)}" for _ in range(self.pick([0, 1, 1, 2], [16, 17]))]
            pairs.append(("scope", self.pick([" "], ["  "]).join(words)))
        self.random.shuffle(pairs)
        if self.seldom(0.1):
            place = self.random.randrange(len(pairs))
            key, value = pairs.pop(place)
            pairs += self.random.choice([[], [(key, "")], [(key, value)] * 2, [(key, value), ("other", "v")]])
        form = urlencode(pairs).encode()
        if self.seldom(0.02):
            form = self.random.choice([form + b"&z=%ff", form.replace(b"client_credentials", b"password")])
        return form

    def texts(self):
        return {self.random.choice(KEYS): self.random.choice(VALUES) for _ in range(self.random.randrange(4))}

    def based_texts(self):
        return {**self.texts(), "default-base-location": self.location()}

    def removals(self):
        return [self.random.choice([*KEYS, "zz"]) for _ in range(self.random.randrange(4))]

    def location(self):
        return self.pick(LOCATIONS, ODD_LOCATIONS + LONG_LOCATIONS, 0.1)

    def locations(self):
        return [self.location() for _ in range(self.random.randrange(3))]

    def catalog_type(self):
        return self.pick(["INTERNAL"], ["EXTERNAL", "internal"], 0.15)

    def service(self):
        return "SERVICE"

    def new_table(self):
        """What a table is asked for with, at a location that is often taken."""
        body = self.tables.body() | {"name": self.pick(NAMES["table"], ODD_TABLES), "location": None}
        if self.seldom(0.6):
            body["location"] = self.pick(TABLE_LOCATIONS, ODD_LOCATIONS + LONG_LOCATIONS, 0.1)
        body["stage-create"] = self.seldom()
        body["properties"] = self.texts()
        if self.seldom(0.2):
            body["properties"]["format-version"] = self.pick(["2"], ["1", "3", "02", ""], 0.3)
        return body

    def commit(self):
        """A commit to the table that a client asks for, or a short one."""
        if self.known:
            return self.clients.commit_to(self.known)
        return {"requirements": [], "updates": [{"action": "set-properties", "updates": self.texts()}]}

    def new_view(self):
        """What a view is asked for with, at a location that is in its catalogue, mostly."""
        body = self.clients.views.body() | {"name": self.pick(NAMES["view"], ODD_TABLES), "location": None}
        if self.seldom(0.6):
            body["location"] = self.pick(TABLE_LOCATIONS, ODD_LOCATIONS + LONG_LOCATIONS, 0.1)
        return body | {"properties": self.texts()}

    def view_commit(self):
        """A commit to the view that a client asks for, or a short one."""
        if self.known:
            return self.clients.commit_to_view(self.known)
        return {"updates": [{"action": "set-properties", "updates": self.texts()}]}

    def transaction(self):
        return self.clients.transaction(self.known[0]) if self.known else {"table-changes": []}

    def renaming(self):
        """The name of a table or a view that a client knows, mostly, and another one."""
        usual = NAMES["table"] + NAMES["view"]
        names = [{"namespace": self.levels(), "name": self.pick(usual, ODD_TABLES)} for _ in range(2)]
        if self.known and not self.seldom():
            names[0] = shown(self.known)
        return {"source": names[0], "destination": names[1]}

    def grant(self):
        kind = self.random.choice(["catalog", "namespace", "namespace", "table", "view"])
        grant = {"type": kind, "privilege": self.pick(sorted(GRANTABLE[kind]), PRIVILEGES)}
        if kind != "catalog":
            grant["namespace"] = self.levels()
        if kind in ("table", "view"):
            grant[f"{kind}Name"] = self.pick(NAMES[kind], ODD_TABLES, 0.1)
        return grant

    def altered(self, body):
        """A body with, at times, one place of it left out or made another value."""
        if not self.seldom(0.14):
            return body
        holder, key = self.random.choice([(None, None), *places_in(body)])
        if holder is None:
            return self.random.choice(ODD_VALUES)
        if isinstance(holder, dict) and self.seldom(0.3):
            del holder[key]
        else:
            holder[key] = self.random.choice(ODD_VALUES)
        return body

    def printed(self, body):
        """A body as text, at times with blanks, a key twice, cut short or with more behind it."""
        separators = self.random.choice([(",", ":"), (", ", " : ")])
        text = json.dumps(body, ensure_ascii=self.seldom(0.5), separators=separators)
        if isinstance(body, dict) and body and self.seldom(0.03):
            key = json.dumps(self.random.choice(list(body)))
            text = f"{{{key}:{json.dumps(self.random.choice(ODD_VALUES))},{text[1:]}"
        if isinstance(body, dict) and body and self.seldom(0.01):
            text = f'{{"odd":{self.random.choice(ODD_TEXTS)},{text[1:]}'
        if self.seldom(0.02):
            text = text[: self.random.randrange(len(text) + 1)]
        if self.seldom(0.01):
            text += self.random.choice([" ", "x", "{}", "\n"])
        return text.encode() + b"\xff" * self.seldom(0.005)

    # Bearers

    def bearer(self):
        """The fields of a request that tell its bearer, and the token that is read from them."""
        kind = self.random.random()
        if not self.tokens or kind > 0.93:
            return ([], None) if kind > 0.97 else ([("authorization", "Bearer zz")], "zz")
        token = self.random.choice(self.tokens[-12:]) if self.seldom(0.6) else self.tokens[0]
        if self.storage_token or self.storage_tokens and self.seldom(0.01):
            token, _ = self.storage_token or self.storage_tokens[-1]
        name = self.random.choice(["authorization", "Authorization", "AUTHORIZATION"])
        fields = [(name, f"{self.random.choice(['Bearer', 'bearer', 'BEARER'])} {token}")]
        other = ("authorization", "Bearer zz")
        odd = [
            ([*fields, other], token),
            ([other, *fields], "zz"),
            ([("authorization", f"Basic {token}")], None),
            ([("authorization", f"Bearer  {token}")], f" {token}"),
        ]
        return self.random.choice(odd) if self.seldom() else (fields, token)
