"""Random commits of two clients to few tables and views. Each goes by what it was told last of a table or a view, which
the other one may have changed since."""

import json

import tables
import views
from random_updates import RandomCommits
from random_views import RandomViews
from reading import name_segment, namespace_segment, plain_segment
from routes import route_of

LOCATIONS = ["lake://b/t", "lake://b/t/", "lake://b/t/x", "lake://b/a/t", "lake://b/a/u", "lake://b/x/u", "lake://b/moved/"]
LOCATIONS += ["lake://c/t", "lake://é/y z/t", "lake://b/n1", "lake://b/n2", "lake://b/n3", "lake://b"]
SHOWN = {
    "create_table": tables.metadata,
    "load_table": tables.metadata,
    "commit_table": tables.metadata,
    "create_view": views.metadata,
    "load_view": views.metadata,
    "replace_view": views.metadata,
}
ON_TABLES = ("load_table", "load_credentials", "drop_table", "commit_table", "commit_transaction", "rename_table")
ON_VIEWS = ("load_view", "replace_view", "rename_view")


class LikelyDone:
    """Commits whose updates of texts are likely to be done, most of the time."""

    def text_update(self):
        if self.is_seldom(0.03):
            return super().text_update()
        return self.pick(
            {"action": "assign-uuid", "uuid": self.uuid_text()},
            {"action": "set-location", "location": self.random.choice(LOCATIONS)},
            {"action": "set-properties", "updates": {key: self.pick("v", "", "é") for key in self.names(3)}},
            {"action": "set-properties", "updates": {key: self.pick("v", "", "é") for key in self.names(3)}},
            {"action": "remove-properties", "removals": self.names(3)},
        )


class RandomViewCommits(LikelyDone, RandomViews):
    """Commits to views, and bodies that create them."""


class RandomClients(LikelyDone, RandomCommits):
    """Commits of a seed. What a client knows is the metadata of tables and views, by catalogue, levels and name. Both
    know the namespaces that were made, by catalogue and levels."""

    def __init__(self, seed):
        super().__init__(seed)
        self.views = RandomViewCommits(seed)
        self.clients = [({}, {}), ({}, {})]
        self.known, self.known_views = self.clients[0]
        self.namespaces = []

    def turn(self, action):
        """Has one of the clients ask the next request, and gives a table, a view or a namespace that this may be on."""
        self.known, self.known_views = self.random.choice(self.clients)
        is_new = action in ("create_table", "create_view")
        found = self.namespaces if is_new else list(self.parts(action)) if action in (*ON_TABLES, *ON_VIEWS) else []
        return self.random.choice(found) if found and not self.is_seldom(0.05) else ()

    def parts(self, action):
        """The tables or the views that the client knows, as the action is on these or those."""
        return self.known_views if action.endswith("_view") else self.known

    # Commits

    def commit_to(self, table):
        return self.commit(self.known[table])

    def commit_to_view(self, view):
        return self.views.commit(self.known_views[view])

    def transaction(self, catalog):
        """Commits to tables of a catalogue, which exchange their locations at times."""
        tables = [table for table in self.known if table[0] == catalog]
        tables = self.random.sample(tables, min(len(tables), self.pick(1, 2, 2, 3)))
        changes = [{"identifier": shown(table)} | self.commit_to(table) for table in tables]
        if len(tables) == 2 and self.is_seldom(0.4):
            for change, other in zip(changes, reversed(tables)):
                place = self.known[other]["location"].decode()
                change["updates"].append({"action": "set-location", "location": place})
        if changes and self.is_seldom(0.05):
            changes.append(self.random.choice(changes))
        if self.is_seldom(0.05):
            changes.append({"identifier": self.identifier(), "requirements": [], "updates": []})
        return {"table-changes": changes}

    # What is told

    def learn(self, method, target, content, status, answered):
        """Has the client know of a table or a view what its request was answered."""
        if status >= 300 and "NoTable" not in answered and "NoView" not in answered:
            return
        action, segments = route_of(method, target.partition("?")[0].encode())
        if action == "create_namespace" and status < 300:
            self.namespaces.append((plain_segment(*segments).decode(), tuple(json.loads(answered)["namespace"])))
        if action in (*SHOWN, "drop_table", "drop_view"):
            known, place = self.parts(action), self.place_of(content, *segments)
            known.pop(place, None)
            if action in SHOWN and status < 300:
                known[place] = SHOWN[action](json.loads(answered)["metadata"], "")

    def place_of(self, content, catalog, namespace, name=None):
        levels = tuple(level.decode() for level in namespace_segment(namespace))
        name = json.loads(content)["name"] if name is None else name_segment(name).decode()
        return plain_segment(catalog).decode(), levels, name


def shown(place):
    """The full name of a table or a view in a body."""
    _, levels, name = place
    return {"namespace": list(levels), "name": name}
