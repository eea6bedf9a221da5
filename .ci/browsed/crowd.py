"""Clients of the examples for .ci/pages without a browser: requests in any form, idle connections, and many at once."""

import collections
import concurrent.futures
import contextlib
import http.client
import socket
import time
import urllib.parse

SECONDS = 20
CLIENTS, POSTS, IDLE = 200, 5, 200
# What the form sends, but for the text.
POST = {"author": "a <b>", "title": "post"}
Answer = collections.namedtuple("Answer", "status location body")
NOTHING = Answer(0, None, "")


class Site:
    """A server that is asked."""

    def __init__(self, url):
        self.origin = url.rstrip("/")
        self.host = urllib.parse.urlsplit(url).netloc

    def connect(self):
        name, _, port = self.host.partition(":")
        return socket.create_connection((name, int(port)), SECONDS)

    def request(self, body=b"", headers=(), line="POST / HTTP/1.1"):
        """Returns the bytes of a request. `headers` replaces some of the usual ones, or leaves out one that is None."""
        usual = {"Host": self.host, "Origin": self.origin, "Connection": "close", "Content-Length": str(len(body))}
        head = [line, *(f"{name}: {value}" for name, value in (usual | dict(headers)).items() if value is not None)]
        return "\r\n".join([*head, "", ""]).encode("latin-1") + body

    def ask(self, sent, ends=False):
        """Sends bytes, and ends the connection in this direction if it has to, and returns the answer."""
        with contextlib.suppress(OSError, http.client.HTTPException), self.connect() as connection:
            connection.sendall(sent)
            if ends:
                connection.shutdown(socket.SHUT_WR)
            with http.client.HTTPResponse(connection) as answer:
                answer.begin()
                return Answer(answer.status, answer.headers.get("Location"), answer.read().decode())
        return NOTHING

    def send(self, fields, **changes):
        """Asks with a request that has fields as a form sends them."""
        return self.ask(self.request(urllib.parse.urlencode(POST | fields).encode(), **changes))

    def get(self, path="/"):
        return self.ask(self.request(line=f"GET {path} HTTP/1.1"))


@contextlib.contextmanager
def idle_connections(site):
    """Holds connections that send nothing, or half of a head, or a head and half of a body."""
    whole = site.request(b"author=a&title=b&text=c")
    with contextlib.ExitStack() as held:
        for number in range(IDLE):
            with contextlib.suppress(OSError):
                connection = held.enter_context(site.connect())
                connection.sendall((b"", whole[:40], whole[:-10])[number % 3])
        yield


def at_once(work, values):
    """Returns what a function returns for each value, all called at the same time."""
    with concurrent.futures.ThreadPoolExecutor(len(values)) as clients:
        return list(clients.map(work, values))


def seconds_of(work):
    """Returns what a call returns, and how long it took."""
    began = time.monotonic()
    return work(), time.monotonic() - began
