"""A program that serves one catalogue with one namespace, as benches ask it."""

import json
import os
import subprocess
import sys
import threading

PROGRAM = os.environ.get("POLARIS", "crates/polaris/out/polaris")
FORM = "grant_type=client_credentials&client_id=root&client_secret=s3cr3t"
TABLES = "/api/catalog/v1/lake/namespaces/a/tables"
SCHEMA = {"type": "struct", "fields": [{"id": 1, "name": "k", "required": True, "type": "long"}]}


def built():
    """Builds the program where it is missing or stale."""
    if "POLARIS" not in os.environ:
        subprocess.run(["./polaris"], stdin=subprocess.DEVNULL, stderr=subprocess.DEVNULL, check=False)
    if not os.access(PROGRAM, os.X_OK):
        sys.exit("the program isn't built")


def message(method, path, body="", token=None):
    bearer = f"authorization: Bearer {token}\r\n" if token else ""
    return f"{method} {path} HTTP/1.1\r\nhost: localhost\r\n{bearer}content-length: {len(body)}\r\n\r\n{body}".encode()


class Catalogue:
    """A program with one namespace, and the number of tables that were created in it."""

    def __init__(self):
        words = [PROGRAM, "exec", "--root-secret", "s3cr3t"]
        self.program = subprocess.Popen(words, stdin=subprocess.PIPE, stdout=subprocess.PIPE)
        self.token, self.tables = None, 0
        self.token = json.loads(self.ask([message("POST", "/api/catalog/v1/oauth/tokens", FORM)]))["access_token"]
        lake = {"catalog": {"name": "lake", "properties": {"default-base-location": "lake://b"}}}
        self.ask([self.message("POST", "/api/management/v1/catalogs", lake)])
        self.ask([self.message("POST", "/api/catalog/v1/lake/namespaces", {"namespace": ["a"]})])

    def message(self, method, path, body=None):
        return message(method, path, "" if body is None else json.dumps(body), self.token)

    def ask(self, requests):
        """Sends these requests, and gives the body of the last answer; each must be good."""
        feeding = threading.Thread(target=self.feed, args=(b"".join(requests),))
        feeding.start()
        for _ in requests:
            body = self.answer()
        feeding.join()
        return body

    def feed(self, sent):
        self.program.stdin.write(sent)
        self.program.stdin.flush()

    def answer(self):
        status, length = self.program.stdout.readline(), 0
        if not status.startswith(b"HTTP/1.1 20"):
            sys.exit(f"the program answered {status}")
        while line := self.program.stdout.readline().strip():
            name, _, value = line.partition(b": ")
            length = int(value) if name == b"content-length" else length
        return self.program.stdout.read(length)

    def seconds(self):
        """The processor time of the program so far."""
        with open(f"/proc/{self.program.pid}/stat", encoding="ascii") as stat:
            used = stat.read().rpartition(")")[2].split()[11:13]
        return sum(map(int, used)) / os.sysconf("SC_CLK_TCK")

    def peak(self):
        """The peak of its memory, in MiB."""
        with open(f"/proc/{self.program.pid}/status", encoding="ascii") as status:
            return next(int(line.split()[1]) for line in status if line.startswith("VmHWM")) / 1024

    def create(self, count):
        numbers = range(self.tables, self.tables + count)
        self.tables += count
        self.ask([self.message("POST", TABLES, {"name": f"t{number}", "schema": SCHEMA}) for number in numbers])

    def rate(self, count, do):
        """How many of so many are done a second."""
        before = self.seconds()
        do()
        return count / (self.seconds() - before)

    def end(self):
        self.program.stdin.close()
        self.program.wait()
