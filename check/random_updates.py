"""Random commits to tables: metadata that earlier commits led to, and commits to it, most of which are broken in one
place."""

import json
from copy import deepcopy

from odd_values import places_in
from random_tables import NUMBERS, UUID, RandomTables, uuid_texts
from reading import Refused, compact
from tables import NotMade
from updates import LEFT_OUT, METADATA_LOG, ORDER, SCHEMA, SNAPSHOT_LOG, SPEC, Draft, column_ids, update

OTHER_UUID = "00000000-0000-4000-8000-000000000000"
MOST_UPDATES = 30
REFS = ["main", "main", "main", "a", "b", "é", "main2", "mai", "\x7f"]
LOCATIONS = ["lake://b/t", "lake://b/t/", "lake://b/moved/", "lake://b//t", "anywhere", "", "lake://b/../t"]
# Of the longest text that is a location once its slash is dropped, and of one byte more.
LONG_LOCATIONS = [f"lake://{'b' * length}/" for length in (1017, 1018)]
LONGEST = 2**63 - 1


def plain(value):
    """A value of metadata as JSON has it."""
    return json.loads(compact(value))


class RandomCommits(RandomTables):
    """Commits of a seed."""

    def is_seldom(self, chance):
        return self.random.random() < chance

    # Metadata that no commit led to

    def first_metadata(self):
        """A valid metadata."""
        schema = self.schema() | {"schema-id": self.pick(0, 0, 3, 2147483646, 2147483647)}
        spec = {"spec-id": self.pick(0, 0, 5, 2147483646, 2147483647), "fields": []}
        order = {"order-id": self.pick(0, 0, 0, 1, 2147483646, 2147483647), "fields": []}
        return {
            "current-schema-id": schema["schema-id"],
            "default-sort-order-id": order["order-id"],
            "default-spec-id": spec["spec-id"],
            "format-version": 2,
            "last-column-id": max(self.columns, default=0),
            "last-partition-id": self.pick(999, 999, 999, 1500, 2147483645, 2147483646, 2147483647),
            "last-sequence-number": self.pick(0, 0, 5, LONGEST - 2),
            "last-updated-ms": self.pick(0, 1000, 3000, LONGEST),
            "location": self.random.choice(LOCATIONS),
            "metadata-log": self.long_log("metadata-file", "f", METADATA_LOG, 0.1),
            "partition-specs": [spec],
            "properties": {},
            "refs": {},
            "schemas": [schema],
            "snapshot-log": [],
            "snapshots": [],
            "sort-orders": [order],
            "table-uuid": UUID,
        } | (self.first_snapshots() if self.is_seldom(0.02) else {})

    def long_log(self, key, name, most, chance):
        """A log about as long as it may be, or an empty one."""
        count = self.random.randint(most - 2, most + 1) if self.is_seldom(chance) else 0
        return [{key: name, "timestamp-ms": place} for place in range(count)]

    def first_snapshots(self):
        """Snapshots whose log is about as long as it may be."""
        log = self.long_log("snapshot-id", 7, SNAPSHOT_LOG, 1)
        log[self.random.choice([0, 1, 4000])]["snapshot-id"] = self.pick(7, 8, 9)
        snapshots = [self.snapshot() | {"snapshot-id": found, "sequence-number": found} for found in (7, 8)]
        refs = {"main": {"snapshot-id": 7, "type": "branch"}}
        return {
            "current-snapshot-id": 7,
            "last-sequence-number": 8,
            "refs": refs,
            "snapshot-log": log,
            "snapshots": snapshots,
        }

    def first_text(self):
        return json.dumps(self.first_metadata(), ensure_ascii=False)

    def turns(self):
        """How many commits follow one another."""
        return self.random.randint(1, 40)

    # Commits

    def commit(self, former):
        """A commit to a metadata."""
        self.former = former
        return {"requirements": self.requirements(), "updates": self.updates()}

    def next_commit(self, former):
        """The text of a commit to a metadata."""
        commit = self.commit(former)
        for _ in range(self.pick(0, 1)):
            commit = self.broken(commit)
        return self.printed(commit)

    def next_transaction(self, former):
        """The text of a transaction, whose commits are all made for one metadata."""
        changes = [{"identifier": self.identifier()} | self.commit(former) for _ in range(self.pick(0, 1, 2, 3))]
        body = {"table-changes": changes}
        for _ in range(self.pick(0, 1)):
            body = super().broken(body)
        return self.printed(body)

    def identifier(self):
        """The full name of a table, or what is none."""
        namespace = self.pick(["a"], ["a", "é"], ["a"] * 16)
        if self.is_seldom(0.1):
            namespace = self.pick([], [""], ["a", 1], ["a"] * 17, ["a\x7f"], ["a" * 129], "a")
        return {"namespace": namespace, "name": "" if self.is_seldom(0.03) else self.pick("t", "é" * 64, "a.b")}

    def requirements(self):
        asked = [self.met() for _ in range(self.pick(0, 0, 1, 3))]
        if self.is_seldom(0.1):
            asked.insert(self.random.randint(0, len(asked)), self.unmet())
        return asked

    def equal(self, number):
        kind, key, known = self.pick(
            ("assert-last-assigned-field-id", "last-assigned-field-id", "last-column-id"),
            ("assert-last-assigned-partition-id", "last-assigned-partition-id", "last-partition-id"),
            ("assert-current-schema-id", "current-schema-id", "current-schema-id"),
            ("assert-default-spec-id", "default-spec-id", "default-spec-id"),
            ("assert-default-sort-order-id", "default-sort-order-id", "default-sort-order-id"),
        )
        return {"type": kind, key: self.former[known] if number is None else number}

    def of_ref(self, name, found):
        return {"type": "assert-ref-snapshot-id", "ref": name, "snapshot-id": found}

    def met(self):
        name = self.random.choice(REFS)
        named = self.former["refs"].get(name, {}).get("snapshot-id")
        uuid = {"type": "assert-table-uuid", "uuid": self.uuid_text()}
        return self.pick(self.equal(None), self.of_ref(name, named), uuid)

    def uuid_text(self):
        return self.random.choice(uuid_texts(self.former["table-uuid"]))

    def unmet(self):
        uuid = {"type": "assert-table-uuid", "uuid": OTHER_UUID}
        ref = self.of_ref(self.pick(*REFS, *self.former["refs"]), self.pick(None, 3, 7))
        return self.pick({"type": "assert-create"}, uuid, ref, self.equal(self.random.choice(NUMBERS)))

    def updates(self):
        """Updates, of which one is refused at times; each is made for the metadata that those before it lead to."""
        self.draft, made = self.begun(self.former), []
        count = self.pick(0, 1, 1, 2, 3, self.random.randint(0, MOST_UPDATES), MOST_UPDATES)
        refused_at = self.random.randrange(count) if count and self.is_seldom(0.4) else None
        while len(made) < count:
            one = self.refused() if len(made) == refused_at else self.update()
            try:
                self.draft.apply(*self.read(json.loads(json.dumps(one))))
            except NotMade:
                if len(made) != refused_at:
                    continue
            except Refused:
                continue
            made.append(one)
        return made

    def begun(self, former):
        return Draft(former)

    def read(self, one):
        return update(one, "")

    def update(self):
        make = self.pick(
            self.schema_update,
            self.spec_update,
            self.order_update,
            self.snapshot_update,
            self.snapshot_update,
            self.text_update,
        )
        return make()

    def refused(self):
        """An update that is likely to be refused."""
        return self.pick(self.odd_text_update, self.odd_member, self.odd_part, self.odd_part, self.odd_snapshot)()

    def odd_text_update(self):
        return self.pick(
            {"action": "assign-uuid", "uuid": OTHER_UUID},
            {"action": "upgrade-format-version", "format-version": self.pick(0, 1, 3, 2147483647)},
        )

    def odd_member(self):
        """One that names what may not be there, or is in use."""
        schema, spec = self.draft.now[SCHEMA.used], self.draft.now[SPEC.used]
        return self.pick(
            {"action": "set-current-schema", "schema-id": self.pick(-1, -1, -1, 77)},
            {"action": "set-default-spec", "spec-id": self.pick(-1, -1, -1, 77)},
            {"action": "set-default-sort-order", "sort-order-id": self.pick(-1, 77)},
            {"action": "remove-schemas", "schema-ids": [3, schema]},
            {"action": "remove-partition-specs", "spec-ids": [spec, 3]},
        )

    def odd_part(self):
        """One that adds what may not be added, or for which ids may be used up."""
        return self.pick(
            {"action": "add-spec", "spec": self.odd_spec()},
            {"action": "add-spec", "spec": self.odd_spec()},
            {"action": "add-sort-order", "sort-order": self.odd_order()},
            {"action": "add-schema", "schema": self.schema()},
        )

    def odd_snapshot(self):
        ids = self.snapshot_ids() + [9]
        again = self.next_snapshot() | {"snapshot-id": self.random.choice(ids)}
        old = self.pick({}, {"sequence-number": self.draft.now["last-sequence-number"]}, {"sequence-number": 0})
        numbers = {"min-snapshots-to-keep": self.pick(1, None), "max-snapshot-age-ms": self.pick(1, None)}
        tag = self.snapshot_ref() | {"type": "tag", "snapshot-id": self.random.choice(ids), **numbers}
        return self.pick({"action": "add-snapshot", "snapshot": again | old}, tag)

    # Parts of updates

    def member(self, kind):
        """A member that is there, as JSON has it, with another id."""
        return plain(self.random.choice(self.draft.now[kind.all])) | {kind.id: self.pick(0, 7)}

    def member_id(self, kind):
        return self.pick(-1, *self.draft.ids(kind))

    def some_ids(self, kind):
        """Ids of members that aren't in use, and others."""
        unused = [found for found in self.draft.ids(kind) if found != self.draft.now[kind.used]]
        return self.random.sample(unused, self.random.randint(0, len(unused))) + self.pick([], [77], [77, 77])

    def take_columns(self):
        """Takes sources from the current schema."""
        used = self.draft.now[SCHEMA.used]
        self.columns = next(column_ids(one) for one in self.draft.now[SCHEMA.all] if one[SCHEMA.id] == used)

    def schema_update(self):
        return self.pick(
            {"action": "add-schema", "schema": self.pick(self.schema(), self.member(SCHEMA), self.turned_schema())},
            {"action": "set-current-schema", "schema-id": self.member_id(SCHEMA)},
            {"action": "set-current-schema", "schema-id": self.member_id(SCHEMA)},
            {"action": "remove-schemas", "schema-ids": self.some_ids(SCHEMA)},
        )

    def turned_schema(self):
        """A schema that is there, but for the order of its identifier ids, or for what is said of a column."""
        schema = self.member(SCHEMA)
        schema["identifier-field-ids"] = list(reversed(schema.get("identifier-field-ids", [])))
        if schema["fields"] and self.is_seldom(0.5):
            schema["fields"][0] |= {"doc": self.pick("said", "other")}
        return schema

    def spec_update(self):
        self.take_columns()
        return self.pick(
            {"action": "add-spec", "spec": self.pick(self.spec(), self.earlier_spec())},
            {"action": "set-default-spec", "spec-id": self.member_id(SPEC)},
            {"action": "remove-partition-specs", "spec-ids": self.some_ids(SPEC)},
        )

    def earlier_spec(self):
        """A spec of fields of those that are there, some of them without their ids or under other ones."""
        fields = plain([field for spec in self.draft.now[SPEC.all] for field in spec["fields"]])
        fields = self.random.sample(fields, self.random.randint(0, min(3, len(fields))))
        fields = [field | self.pick({}, {}, {"field-id": self.pick(1001, 1700, 1701)}) for field in fields]
        return {"fields": [self.without_some(field, "field-id") for field in fields]}

    def odd_spec(self):
        """A spec with fields of one name or id, or a source that may not be there."""
        self.take_columns()
        self.columns += self.pick([], [], [77])
        spec = self.spec()
        fields = spec["fields"] + deepcopy(self.earlier_spec()["fields"])
        if fields:
            fields.append(self.random.choice(fields) | self.pick({}, {"name": "z"}, {"field-id": 1000}))
        return spec | {"fields": fields}

    def order_update(self):
        self.take_columns()
        return self.pick(
            {"action": "add-sort-order", "sort-order": self.pick(self.order(), self.member(ORDER))},
            {"action": "set-default-sort-order", "sort-order-id": self.member_id(ORDER)},
        )

    def odd_order(self):
        self.take_columns()
        self.columns += [77]
        return self.order()

    def snapshot_ids(self):
        return [snapshot["snapshot-id"] for snapshot in self.draft.now["snapshots"]]

    def next_snapshot(self):
        number = self.draft.now["last-sequence-number"] + self.pick(1, 1, 2)
        return self.snapshot() | {"snapshot-id": self.pick(*range(12), LONGEST), "sequence-number": number}

    def snapshot_ref(self):
        found = {"action": "set-snapshot-ref", "ref-name": self.random.choice(REFS), **self.reference()}
        return found | {"snapshot-id": self.pick(*self.snapshot_ids(), 9)}

    def snapshot_update(self):
        ids = self.snapshot_ids()
        gone = self.random.sample(ids, self.random.randint(0, min(2, len(ids))))
        return self.pick(
            {"action": "add-snapshot", "snapshot": self.next_snapshot()},
            {"action": "add-snapshot", "snapshot": self.next_snapshot()},
            self.snapshot_ref(),
            self.snapshot_ref(),
            self.snapshot_ref(),
            {"action": "remove-snapshots", "snapshot-ids": gone + self.pick([], [9])},
            {"action": "remove-snapshot-ref", "ref-name": self.random.choice(REFS)},
        )

    def text_update(self):
        return self.pick(
            {"action": "assign-uuid", "uuid": self.uuid_text()},
            {"action": "upgrade-format-version", "format-version": 2},
            {"action": "set-location", "location": self.pick(*LOCATIONS, *LONG_LOCATIONS)},
            {"action": "set-properties", "updates": {key: self.pick("v", "", "é") for key in self.names(3)}},
            {"action": "remove-properties", "removals": self.names(3)},
            {"action": self.random.choice(LEFT_OUT)},
        )

    # What is broken

    def odd_word(self, places):
        """Another word for an action or a requirement, or what random bodies of tables break."""
        if self.is_seldom(0.5):
            return super().odd_word(places)
        words = ["add-view-version", "set-current-view-version", "assert-view-uuid", "add-Schema", "add-schema "]
        words += ["add-schema", "set-snapshot-ref", "assert-create", "assert-table-uuid"]
        holder, key = self.place(places, lambda _, key, value: key in ("action", "type") and isinstance(value, str))
        holder[key] = self.random.choice(words)

    def broken(self, body):
        """Breaks a commit in one place, which is among its updates or requirements most of the time."""
        parts = [*body["requirements"], *body["updates"]]
        if not parts or self.is_seldom(0.1):
            return super().broken(body)
        part = self.random.choice(parts)
        ways = [self.odd_value, self.left_out, self.odd_number, self.odd_word, self.repeated, self.deep, self.null]
        self.random.choice(ways)(places_in(part))
        return body
