"""The rules over a clock and draws that are known, so that each answer is known before it comes."""

from rows import Moment
from rules import Rules

# How many random words a request of an action draws, once it was read. The loading of a table draws two where a
# storage token is asked for.
WORDS = {"open_session": 2, "create_table": 4, "load_credentials": 2}
WORDS |= {"create_view": 2, "create_principal": 3, "rotate": 2}


class Foretold(Rules):
    """Rules over a clock that tells these moments, the last of which stays, and draws that count from 0."""

    def __init__(self, root_secret, moments):
        super().__init__(root_secret)
        self.moments = list(moments)
        self.time = 0
        self.next_word = 0
        self.words = []

    def begin(self, request):
        told = self.moments.pop(0) if len(self.moments) > 1 else self.moments[0]
        self.time = max(self.time, told)
        request.moment = Moment(self.time)
        count = 2 if request.action == "load_table" and request.is_delegated else WORDS.get(request.action, 0)
        self.words = range(self.next_word, self.next_word + count)
        self.next_word += count

    def drawn(self, request, key, form):
        digits = ["%016x" % word for word in self.words]
        if key in ("table-uuid", "view-uuid"):
            return uuid_of(digits[0] + digits[1])
        if key in ("access_token", "lake.token"):
            return form[:16] + "".join(digits[-2:])
        return digits[0] if key == "clientId" else "".join(digits[-2:])


def uuid_of(digits):
    """The uuid of version 4 that is made of 32 hexadecimal digits (RFC 9562, section 5.4)."""
    variant = "89ab"[int(digits[16], 16) % 4]
    digits = f"{digits[:12]}4{digits[13:16]}{variant}{digits[17:]}"
    return "-".join([digits[:8], digits[8:12], digits[12:16], digits[16:20], digits[20:]])
