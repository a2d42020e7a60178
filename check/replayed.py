"""Tables of values, as `pol_replay` plays them."""

import os
import re
import subprocess
import tempfile

PROGRAM = os.environ.get("REPLAY", "./replay")


def escaped(text):
    """A text as lines of examples write it, with nothing in it that parts a line."""
    return re.sub(r"[\x00-\x1f\x7f\\|>]", lambda found: f"\\x{ord(found[0]):02x}", text)


def example(number, question, arguments, due):
    return f"== {question} {number}\n{question} {' | '.join(map(escaped, arguments))} -> {escaped(due)}\n"


def difference(cases):
    """What is said of these cases, each a question, its arguments and what is due, where not all are told so."""
    with tempfile.NamedTemporaryFile("w", suffix=".txt", encoding="utf-8", newline="\n") as file:
        file.writelines(example(number, *case) for number, case in enumerate(cases))
        file.flush()
        played = subprocess.run([PROGRAM, file.name], stdout=subprocess.PIPE, check=False)
    is_alike = played.returncode == 0 and played.stdout.decode() == f"{len(cases)} examples agree\n"
    return None if is_alike else played.stdout.decode()


def way(case):
    """How a case is told: by JSON, or by a word, and by why where an update is refused."""
    question, _, due = case
    word = "JSON" if due.startswith("{") else due.split(":")[0]
    return f"{question}, {word} {due.split()[-1]}" if word == "Refused" else f"{question}, {word}"
