"""Values of JSON to break a body with, and the places where it may be broken."""

ODD_VALUES = [None, 1, True, "x", "", [], {}, ["a"], {"a": 1}, 1.5, "é", [1], {"b": None}]


def places_in(value):
    """Each place of a value of JSON, as what holds it and its key there."""
    members = list(value.items() if isinstance(value, dict) else enumerate(value) if isinstance(value, list) else [])
    return [place for key, part in members for place in [(value, key), *places_in(part)]]
