"""What forms of values as bytes are made of, written a second time as a plain program, so that the proved one can be
compared with it.

A form has `write`, which gives the bytes of a value, and `read`, which gives the value that bytes begin with, and where
the rest begins. `NoForm` is raised where no value has such a form. Values are those of Python: a struct is a dict of
its fields, an enum a pair of the variant's name and its fields, an absent value None."""

from dataclasses import dataclass
from typing import Callable


class NoForm(Exception):
    """No value has these bytes as its form, or the value breaks the rules of its type."""


@dataclass
class Form:
    write: Callable
    read: Callable


def ruled(form, rule):
    """The values of a form that keep a rule."""

    def write(value):
        if not rule(value):
            raise NoForm
        return form.write(value)

    def read(text, at):
        value, at = form.read(text, at)
        if not rule(value):
            raise NoForm
        return value, at

    return Form(write, read)


def front(text, at, count):
    if len(text) - at < count:
        raise NoForm
    return text[at : at + count], at + count


def whole_number(size):
    """A number of so many bytes, most significant first."""

    def write(value):
        if not 0 <= value < 256**size:
            raise NoForm
        return value.to_bytes(size, "big")

    def read(text, at):
        digits, at = front(text, at, size)
        return int.from_bytes(digits, "big"), at

    return Form(write, read)


def fixed(size):
    """So many bytes as they are."""
    return ruled(Form(lambda value: value, lambda text, at: front(text, at, size)), lambda value: len(value) == size)


NUMBER, SHORT, BYTE = whole_number(8), whole_number(4), whole_number(1)


def between(form, least, most):
    return ruled(form, lambda value: least <= value <= most)


def read_bytes(text, at):
    count, at = NUMBER.read(text, at)
    return front(text, at, count)


BYTES = Form(lambda value: NUMBER.write(len(value)) + value, read_bytes)


def read_text(text, at):
    value, at = BYTES.read(text, at)
    try:
        return value.decode(), at
    except UnicodeDecodeError:
        raise NoForm from None


TEXT = Form(lambda value: BYTES.write(value.encode()), read_text)


def read_truth(text, at):
    value, at = BYTE.read(text, at)
    if value > 1:
        raise NoForm
    return value == 1, at


TRUTH = Form(lambda value: bytes([value]), read_truth)


def optional(form):
    def read(text, at):
        there, at = TRUTH.read(text, at)
        return form.read(text, at) if there else (None, at)

    return Form(lambda value: b"\0" if value is None else b"\1" + form.write(value), read)


def listed(form):
    def read(text, at):
        count, at = NUMBER.read(text, at)
        values = []
        for _ in range(count):
            value, at = form.read(text, at)
            values.append(value)
        return values, at

    return Form(lambda values: NUMBER.write(len(values)) + b"".join(map(form.write, values)), read)


def mapping(form):
    """Values under texts, which rise in byte order."""
    pairs = listed(struct(key=TEXT, value=form))

    def write(value):
        order = sorted(value, key=str.encode)
        return pairs.write([{"key": key, "value": value[key]} for key in order])

    def read(text, at):
        found, at = pairs.read(text, at)
        keys = [pair["key"].encode() for pair in found]
        if any(left >= right for left, right in zip(keys, keys[1:])):
            raise NoForm
        return {pair["key"]: pair["value"] for pair in found}, at

    return Form(write, read)


def struct(**fields):
    """The fields of a struct, in their order."""

    def read(text, at):
        value = {}
        for name, form in fields.items():
            value[name], at = form.read(text, at)
        return value, at

    return Form(lambda value: b"".join(form.write(value[name]) for name, form in fields.items()), read)


NOTHING = Form(lambda value: b"", lambda text, at: (None, at))


def enum(**variants):
    """One byte, the place of the variant, and its fields. A variant whose form is None has a place and no values."""
    names = list(variants)

    def write(value):
        form = variants[value[0]]
        if form is None:
            raise NoForm
        return bytes([names.index(value[0])]) + form.write(value[1])

    def read(text, at):
        place, at = BYTE.read(text, at)
        if place >= len(names) or variants[names[place]] is None:
            raise NoForm
        fields, at = variants[names[place]].read(text, at)
        return (names[place], fields), at

    return Form(write, read)


def later(form_of):
    """A form that is made where it is used, for types that stand in one another."""
    return Form(lambda value: form_of().write(value), lambda text, at: form_of().read(text, at))
