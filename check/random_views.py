"""Random bodies that create a view, random metadata of views, and random commits to those, most of which are broken in
one place."""

from random_tables import UUID, RandomTables, uuid_texts
from random_updates import LOCATIONS, LONG_LOCATIONS, OTHER_UUID, RandomCommits
from tables import HIGHEST_ID
from updates import LEFT_OUT, SCHEMA
from views import MOST_VERSIONS, VERSION, ViewDraft, update

QUERIES = ["SELECT 1", "SELECT 2", "SELECT 3", "", "SELECT 'é'\n"]
ODD_NAMESPACES = [[], [""], ["a", 1], ["a"] * 17, ["a\x7f"], ["a" * 129], "a"]


class RandomViews(RandomCommits):
    """Bodies, metadata and commits of a seed."""

    # What is right

    def representation(self):
        return {"type": "sql", "sql": self.random.choice(QUERIES), "dialect": self.pick("spark", "trino")}

    def version(self):
        """A version that is asked for."""
        version = {
            "version-id": self.pick(0, 1, 7, HIGHEST_ID),
            "timestamp-ms": self.long(),
            "schema-id": self.pick(0, -1, 7),
            "summary": self.pick({}, {"engine": "e"}, {"é": "1", "a": ""}),
            "representations": self.pick([self.representation()], self.some(self.representation)),
            "default-catalog": self.pick("c", "", None),
            "default-namespace": self.pick(["a"], ["a"], ["a", "é"], ["a"] * 16),
        }
        if self.is_seldom(0.02):
            version["default-namespace"] = self.random.choice(ODD_NAMESPACES)
        return self.without_some(version, "default-catalog")

    def body(self):
        body = {
            "name": self.pick("v", "x" * 128, "a/b", "é"),
            "location": self.random.choice([*LOCATIONS, None]),
            "schema": self.without_some(self.schema(), "schema-id"),
            "view-version": self.version(),
            "properties": {key: self.pick("v", "", "é") for key in self.names(3)},
            "more": {"fields": 1},
        }
        return self.without_some(body, "location", "more")

    def metadata(self):
        """A metadata whose ids may name what isn't there."""
        metadata = {
            "current-version-id": self.pick(0, 1, HIGHEST_ID),
            "format-version": 1,
            "location": self.random.choice(LOCATIONS),
            "properties": {key: "v" for key in self.names(2)},
            "schemas": self.some(self.schema) + [self.schema()],
            "version-log": self.some(lambda: {"timestamp-ms": self.long(), "version-id": self.pick(1, HIGHEST_ID)}),
            "versions": [self.version() | {"schema-id": self.pick(0, 7)} for _ in range(self.random.randint(0, 2))],
            "view-uuid": self.random.choice(uuid_texts(UUID)),
            "more": 1,
        }
        return self.without_some(metadata, "more")

    # Metadata that no commit led to

    def first_metadata(self):
        """A valid metadata, at times with about as many versions as a view may have, whose ids rise or don't."""
        schema = self.schema() | {"schema-id": self.pick(0, 0, 3, HIGHEST_ID - 1, HIGHEST_ID)}
        count = self.pick(1, 3, self.random.randint(MOST_VERSIONS - 3, MOST_VERSIONS + 3))
        highest = self.pick(1000, 1000, 1000, 1000, HIGHEST_ID - 1, HIGHEST_ID)
        ids = self.random.sample(range(highest - count + 1, highest + 1), count)
        ids = self.pick(ids, sorted(ids))
        log = [self.pick(*ids, 7) for _ in range(self.random.randint(0, 6))]
        return {
            "current-version-id": self.pick(ids[-1], min(ids), self.random.choice(ids)),
            "format-version": 1,
            "location": self.random.choice(LOCATIONS),
            "properties": {key: "v" for key in self.names(2)},
            "schemas": [schema],
            "version-log": [{"timestamp-ms": place, "version-id": found} for place, found in enumerate(log)],
            "versions": [self.stored(found, schema) for found in ids],
            "view-uuid": UUID,
        }

    def stored(self, found, schema):
        """A version of this id, most often other than those of other ids."""
        query = self.pick(self.random.choice(QUERIES), f"SELECT {found}", f"SELECT {found}")
        told = {"summary": {}, "representations": [{"type": "sql", "sql": query, "dialect": "spark"}]}
        ids = {"version-id": found, "timestamp-ms": 5, "schema-id": schema["schema-id"]}
        return told | ids | {"default-namespace": ["a"]}

    # Commits

    def commit(self, former):
        commit = super().commit(former)
        if not commit["requirements"] and self.is_seldom(0.3):
            commit |= {"requirements": None}
        return commit

    def broken(self, body):
        """Breaks a commit as one to a table, and what is none in any place."""
        is_commit = isinstance(body, dict) and isinstance(body.get("requirements"), list)
        return super().broken(body) if is_commit else RandomTables.broken(self, body)

    def met(self):
        return {"type": "assert-view-uuid", "uuid": self.uuid_text()}

    def unmet(self):
        return {"type": "assert-view-uuid", "uuid": OTHER_UUID}

    def uuid_text(self):
        return self.random.choice(uuid_texts(self.former["view-uuid"]))

    def begun(self, former):
        return ViewDraft(former)

    def read(self, one):
        return update(one, "")

    def update(self):
        return self.pick(self.schema_update, self.version_update, self.version_update, self.text_update)()

    def refused(self):
        """An update that is likely to be refused."""
        return self.pick(
            {"action": "assign-uuid", "uuid": OTHER_UUID},
            {"action": "upgrade-format-version", "format-version": self.pick(0, 2, 3, HIGHEST_ID)},
            {"action": "add-schema", "schema": self.schema()},
            self.version_added(self.pick(-1, -1, 77)),
            self.version_added(self.member_id(SCHEMA)),
            {"action": "set-current-view-version", "view-version-id": self.pick(-1, -1, 77)},
        )

    # Parts of updates

    def schema_update(self):
        return {"action": "add-schema", "schema": self.pick(self.schema(), self.member(SCHEMA), self.turned_schema())}

    def version_added(self, schema):
        return {"action": "add-view-version", "view-version": self.version() | {"schema-id": schema}}

    def member_version(self):
        """A version that is there, at another time, at times with another part."""
        own = {"timestamp-ms": self.long(), "schema-id": self.pick(*self.draft.ids(SCHEMA))}
        same = self.member(VERSION)
        return same | own if self.is_seldom(0.3) else same | {"timestamp-ms": self.long()}

    def version_update(self):
        return self.pick(
            self.version_added(self.member_id(SCHEMA)),
            {"action": "add-view-version", "view-version": self.member_version()},
            {"action": "set-current-view-version", "view-version-id": self.member_id(VERSION)},
            {"action": "set-current-view-version", "view-version-id": self.pick(-1, self.member_id(VERSION))},
        )

    def text_update(self):
        return self.pick(
            {"action": "assign-uuid", "uuid": self.uuid_text()},
            {"action": "upgrade-format-version", "format-version": 1},
            {"action": "set-location", "location": self.pick(*LOCATIONS, *LONG_LOCATIONS)},
            {"action": "set-properties", "updates": {key: self.pick("v", "", "é") for key in self.names(3)}},
            {"action": "remove-properties", "removals": self.names(3)},
            {"action": self.random.choice(LEFT_OUT)},
        )
