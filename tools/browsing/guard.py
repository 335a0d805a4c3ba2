"""Which requests are heard: a GET for a page behind the token, from this machine and by the address that was printed.

A page that another site opens does not know the token. A name that another site lets stand for this machine comes in the header Host,
which must be the printed one. Nothing of a request is ever a path of a file: its path is compared with the few that there are.
"""
import hmac

# How many bytes the head of a request has at most.
LONGEST_HEAD = 16384
NAMES = ("", "page.html")


class Refused(Exception):
    """A request that is not heard, with the status of the answer."""

    def __init__(self, status, what):
        super().__init__(what)
        self.status, self.what = status, what


def hosts_in(lines):
    """Returns what the fields Host of a head say. Each line of a head is a field, and none goes on in the next."""
    hosts = []
    for line in lines:
        name, colon, value = line.partition(":")
        if not colon or not name or name != name.strip():
            raise Refused(400, "a line of the head is no field")
        if name.lower() == "host":
            hosts.append(value.strip(" \t"))
        if name.lower() in ("content-length", "transfer-encoding") and value.strip() != "0":
            raise Refused(400, "a request with a body")
    return hosts


def asked(head, authority, token):
    """Returns the name of the page that a request asks for, and its query; or refuses the request. The head is without its last line."""
    if not head.isascii():
        raise Refused(400, "the head is not ASCII")
    first, *lines = head.decode("ascii").split("\r\n")
    words = first.split(" ")
    if len(words) != 3 or words[2] not in ("HTTP/1.1", "HTTP/1.0"):
        raise Refused(400, "no request of HTTP/1.1")
    if words[0] != "GET":
        raise Refused(405, "GET alone is answered")
    if hosts_in(lines) != [authority]:
        raise Refused(421, "this is another host")
    path, _, query = words[1].partition("?")
    start, _, name = path.rpartition("/")
    if not hmac.compare_digest(start, f"/{token}") or name not in NAMES:
        raise Refused(404, "there is no such page")
    return name, query
