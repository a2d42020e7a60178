"""The objects of the server's own store."""

from reading import covers, location_text, refuse

MAX_LENGTH = 8_388_608
MAX_COUNTED = 268_435_456


class Objects:
    """Objects by their paths, which are written once, and how many bytes were put so far."""

    def __init__(self):
        self.kept = {}
        self.counted = 0

    def there(self, path):
        """The bytes of the object at a path."""
        if tuple(path) not in self.kept:
            refuse("NoObject")
        return self.kept[tuple(path)]

    def put(self, path, content):
        if tuple(path) in self.kept:
            refuse("ObjectThere")
        if len(content) > MAX_LENGTH:
            refuse("TooLong", b"%d" % len(content))
        if self.counted + len(content) > MAX_COUNTED:
            refuse("SpaceFull", b"%d" % (self.counted + len(content)))
        self.kept[tuple(path)] = content
        self.counted += len(content)

    def delete(self, path):
        self.there(path)
        del self.kept[tuple(path)]

    def texts_under(self, path):
        """The texts of the paths of all objects that a path covers, in byte order."""
        return sorted(location_text(other) for other in self.kept if covers(tuple(path), other))
