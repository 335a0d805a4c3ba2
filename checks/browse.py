#!/usr/bin/env python3
"""Tests of tools/browse.py on the built program: its pages by http.client, and by a browser where Chromium and its driver are installed.

  python3 checks/browse.py PROGRAM [PART ..]

The parts, which are the classes of this file, run side by side. A PART is that of a name of a class or of a test, and these run alone.
What is wanted comes from the files of the examples, from calls of the program itself, and from hand. The last line is `N passed, M
failed`, and the status is 1 where one failed.
"""
import contextlib
import html
import http.client
import http.server
import os
import pty
import random
import re
import shutil
import signal
import socket
import subprocess
import sys
import tempfile
import threading
import time
import unittest
import urllib.parse
import xml.etree.ElementTree as tree

TOP = os.path.dirname(os.path.dirname(os.path.abspath(__file__)))
sys.path[:0] = [os.path.join(TOP, "tools"), os.path.join(TOP, "checks")]
import chromium
import results
from browsing.items import Items

PAIRS, MANY = 50, 1_000_000
# How many seconds a page may take where other work holds the processors, and how many clients say nothing meanwhile: a server that heard
# one after another would wait ten seconds for each, and so longer.
LATE, SILENT = 150, 20
PHYLOGENY = os.path.join(TOP, "examples/phylogeny")
SPEC, EVENTS, OUTER, VIEW, LABELS = (os.path.join(PHYLOGENY, name) for name in ("spec", "events", "outer", "view", "labels"))
# Signs that HTML, the language of pictures, a shell or a terminal reads otherwise.
ODD = "<b>&amp;\"'`$(false);|\\\n\x1b[31m %s{a} é\u202e#?=-"
DRAWS = bool(shutil.which("dot"))


def called(*words, text=None):
    """Returns the lines that the program writes."""
    ran = subprocess.run([os.environ["WFPROV"], *words], input=text, capture_output=True, check=True, text=True)
    return ran.stdout.splitlines()


def asked(view, pairs, spec=SPEC, labels=LABELS):
    """Returns what `ask` answers to pairs of items, of the phylogeny where no other files are named."""
    return called("ask", spec, view, labels, "/dev/stdin", text="".join(f"{first} {second}\n" for first, second in pairs))


def names_of(spec, view, events):
    """Returns the items that a view shows of a run."""
    return [line[5:] for line in called("export", spec, view, events) if line.startswith("item ")]


def pairs_of(names, count, seed):
    """Returns pairs of names that follow from a number."""
    draw = random.Random(seed)
    return sorted((draw.choice(names), draw.choice(names)) for _ in range(count))


class Page:
    """A page as it came, and its parts."""

    def __init__(self, status, fields, body):
        self.status, self.fields, self.text = status, fields, body.decode("utf-8", "surrogateescape")

    def top(self):
        return tree.fromstring(self.text.split("\n", 1)[1])

    def section(self, name):
        """Returns the text of a part, or nothing where it is not there."""
        return next(("".join(part.itertext()) for part in self.top().iter("section") if part.get("id") == name), "")

    def answer(self):
        """Returns the word of the answer."""
        found = [part.text for part in self.top().iter("p") if part.get("class") == "word"]
        return found[0] if found else ""

    def items(self, word, attribute="class"):
        """Returns the items in a part of a class, or of a name."""
        parts = [part for part in self.top().iter() if part.get(attribute) == word]
        return [link.text for part in parts for link in part.iter("a")]

    def commands(self):
        return [line for part in self.top().iter("pre") for line in part.text.split("\n")]


class Tool:
    """The tool at work, and requests to it."""

    def __init__(self, *words, **named):
        command = [sys.executable, os.path.join(TOP, "tools/browse.py"), *words]
        self.child = subprocess.Popen(command, stdin=named.pop("stdin", subprocess.PIPE), stdout=subprocess.PIPE, stderr=subprocess.PIPE, **named)
        self.address = self.child.stdout.readline().decode().strip()
        self.port = urllib.parse.urlsplit(self.address).port
        self.path = urllib.parse.urlsplit(self.address).path

    def __enter__(self):
        return self

    def __exit__(self, *_):
        if self.child.poll() is None:
            self.child.terminate()
        self.child.wait()
        for stream in (self.child.stdin, self.child.stdout, self.child.stderr):
            if stream:
                stream.close()

    def get(self, name="", **query):
        """Returns a page."""
        return self.request("GET", self.path + name + "?" * bool(query) + urllib.parse.urlencode(query, errors="surrogateescape"))

    def request(self, method, path, fields=(), body=None):
        """Returns what a request gets that has these fields in the place of its own."""
        connection = http.client.HTTPConnection("127.0.0.1", self.port, timeout=LATE)
        connection.putrequest(method, path, skip_host=bool(fields), skip_accept_encoding=True)
        for name, value in fields:
            connection.putheader(name, value)
        connection.endheaders(body)
        with contextlib.closing(connection):
            reply = connection.getresponse()
            return Page(reply.status, dict(reply.getheaders()), reply.read())

    def raw(self, data):
        """Returns what comes back where these bytes are sent."""
        with socket.create_connection(("127.0.0.1", self.port), timeout=60) as client:
            client.sendall(data)
            client.shutdown(socket.SHUT_WR)
            return b"".join(iter(lambda: client.recv(65536), b""))

    def children(self):
        """Returns the numbers of the processes that the tool started and that are there."""
        found = []
        for process in filter(str.isdecimal, os.listdir("/proc")):
            with contextlib.suppress(OSError), open(f"/proc/{process}/stat", encoding="utf-8", errors="replace") as file:
                found += [int(process)] if int(file.read().rpartition(")")[2].split()[1]) == self.child.pid else []
        return found


class Tested(unittest.TestCase):
    """A test with a folder of its own."""

    def setUp(self):
        folder = tempfile.TemporaryDirectory()
        self.addCleanup(folder.cleanup)
        self.folder = folder.name
        self.everything = self.file("everything", "{}")

    def file(self, name, text):
        path = os.path.join(self.folder, name)
        with open(path, "w", encoding="utf-8") as file:
            file.write(text)
        return path

    def program(self, script):
        """Returns a program in which a script of a shell stands before the true one, which is $real."""
        path = self.file("program", f"#!/bin/sh\nreal='{os.environ['WFPROV']}'\n{script}\nexec \"$real\" \"$@\"\n")
        os.chmod(path, 0o755)
        return {**os.environ, "WFPROV": path}

    def refused(self, message, *words, **named):
        """Tries that the tool refuses a call with one line, and opens no page."""
        command = [sys.executable, os.path.join(TOP, "tools/browse.py"), *words]
        ran = subprocess.run(command, stdin=subprocess.DEVNULL, capture_output=True, check=False, timeout=120, **named)
        self.assertEqual((ran.returncode, ran.stdout, ran.stderr.decode()), (2, b"", f"browse.py: {message}\n"))


class Pages(Tested):
    def setUp(self):
        super().setUp()
        self.tool = Tool(SPEC, EVENTS, OUTER, self.everything)
        self.addCleanup(self.tool.__exit__)

    def test_whole(self):
        """each page is well-formed, has no script and fetches nothing, and its policy allows none"""
        for query in ({}, {"first": "run.cfg"}, {"first": "run.cfg", "second": "run.report"}, {"view": 1}, {"view": 1, "first": "al.m"}, {"find": "<b>"}):
            page = self.tool.get(**query)
            self.assertEqual(page.status, 200)
            tags = {part.tag.split("}")[-1] for part in page.top().iter()}
            self.assertFalse(tags & {"script", "link", "img", "iframe", "image", "object", "use", "base", "animate", "foreignObject"})
            for part in page.top().iter():
                self.assertFalse([name for name in part.attrib if re.search(r"^on|src|style$|action", name)])
                self.assertRegex(part.get("href", "?"), r"^(page\.html)?\?")
            self.assertFalse(re.search(r"url\(|@import|javascript:|data:", page.text))
            self.assertLessEqual(set(re.findall(r'https?://[^"\s]*', page.text)), {"http://www.w3.org/2000/svg"})
            self.assertIn("default-src 'none'", page.fields["Content-Security-Policy"])
            self.assertEqual((page.fields["Referrer-Policy"], page.fields["Cache-Control"]), ("no-referrer", "no-store"))

    def test_examples(self):
        """the questions of the README and of the example have the answers that stand beside them"""
        for view, queries, answers in ((OUTER, "asked", ["yes", "no", "hidden"]), (VIEW, "queries", None)):
            lines = open(os.path.join(PHYLOGENY, queries), encoding="ascii").read().splitlines()
            answers = answers or open(os.path.join(PHYLOGENY, "answers"), encoding="ascii").read().split()
            with Tool(SPEC, EVENTS, view) as tool:
                found = [tool.get(first=line.split()[0], second=line.split()[1]).answer() for line in lines]
            self.assertEqual(found, answers)

    def test_pairs(self):
        """the answers to 50 pairs under each of two views are those of `ask`, with items that are hidden and that are not there"""
        names = ["run.cfg", "run.report", "run.tree", "re0.q", "rl3.c2", "al.m", "sp.a", "bu.n", "rl56.m2", "no.such"]
        pairs = pairs_of(names, PAIRS, 1)
        for number, view in enumerate((OUTER, self.everything)):
            found = [self.tool.get(view=number, first=first, second=second).answer() for first, second in pairs]
            self.assertEqual(found, asked(view, pairs))
            self.assertLessEqual({"yes", "no", "unknown"}, set(found))

    def test_words(self):
        """each answer has its sentence, with the items that are hidden or not there"""
        said = {
            ("run.cfg", "run.report"): "run.report rests on run.cfg.",
            ("run.cfg", "run.tree"): "run.tree does not rest on run.cfg.",
            ("run.tree", "run.cfg"): "run.tree goes out of the run, so nothing rests on it; what a step reads of its value is another item.",
            ("sp.a", "run.tree"): f"The view {OUTER} hides sp.a, and gives no answer. Another view may show more.",
            ("sp.a", "rl0.c2"): f"The view {OUTER} hides sp.a and rl0.c2, and gives no answer. Another view may show more.",
            ("no.such", "run.tree"): "The run has no item no.such.",
            ("no.such", "sp.a"): f"The run has no item no.such. The view {OUTER} hides sp.a, and gives no answer. Another view may show more.",
        }
        for (first, second), words in said.items():
            page = self.tool.get(first=first, second=second)
            self.assertEqual(["".join(part.itertext()) for part in page.top().iter("p") if part.get("class") == "says"], [words])

    def test_commands(self):
        """the commands of an answer, run by bash, give it again, and the chain of the page is that of `explain`"""
        os.symlink(os.environ["WFPROV"], os.path.join(self.folder, "wfprov"))
        named = {**os.environ, "PATH": self.folder + ":" + os.environ["PATH"]}
        for view, first, second, word in ((0, "run.cfg", "run.report", "yes"), (1, "run.cfg", "run.report", "yes"), (0, "run.cfg", "run.tree", "no")):
            page = self.tool.get(view=view, first=first, second=second)
            ran = [subprocess.run(["bash", "-c", line], env=named, capture_output=True, check=True, text=True).stdout for line in page.commands()]
            chain = called("explain", SPEC, (OUTER, self.everything)[view], EVENTS, first, second) if word == "yes" else []
            self.assertEqual(ran, [word + "\n"] * 2 + (["".join(line + "\n" for line in chain), "yes\n"] if chain else []))
            self.assertEqual(page.items("chain"), chain[::2])
            self.assertEqual("verify looked at each of its lines and accepted it" in page.section("answer"), word == "yes")

    def test_related(self):
        """what an item rests on and what rests on it are as `lineage` and `impact` list them"""
        for number, view in enumerate((OUTER, self.everything)):
            for name in ("run.cfg", "re0.q", "run.report", "al.m"):
                page = self.tool.get(view=number, first=name)
                self.assertEqual(page.items("before"), called("lineage", SPEC, view, LABELS, name))
                self.assertEqual(page.items("after"), called("impact", SPEC, view, LABELS, name))
                self.assertIn(f"lineage {SPEC}", page.commands()[0])
        self.assertIn("hides sp.a", self.tool.get(first="sp.a").section("answer"))
        self.assertIn("no item no.such", self.tool.get(first="no.such").section("answer"))

    @unittest.skipUnless(DRAWS, "Graphviz is not installed")
    def test_picture(self):
        """the picture marks the way of the chain, what an item rests on, and the steps that the view closes; each item can be clicked"""
        top = self.tool.get(first="run.cfg", second="run.report").top()
        groups = {}
        for part in top.iter("{http://www.w3.org/2000/svg}g"):
            for word in (part.get("class") or "").split():
                groups.setdefault(word, set()).update(text.text for text in part.iter("{http://www.w3.org/2000/svg}text"))
        self.assertLessEqual({"re0: Refine", "rp: Report", "re0.q", "run.cfg", "run.report"}, groups["path"])
        self.assertFalse({"al: Align", "bu: Build", "re0.r", "al.m"} & groups["path"])
        self.assertLessEqual({"re0: Refine", "bu: Build"}, groups["closed"])
        self.assertFalse({"al: Align", "rp: Report"} & groups["closed"])
        links = {part.get("href") for part in top.iter("{http://www.w3.org/2000/svg}a")}
        self.assertEqual(links, {f"?view=0&first=run.cfg&second={name}" for name in names_of(SPEC, OUTER, EVENTS)})
        page = self.tool.get(first="re0.q")
        marked = re.findall(r'class="(?:node|edge) (before|after|asked)">.*?<text[^>]*>([^<]*)</text>', page.text, re.DOTALL)
        self.assertEqual(set(marked), {("before", "run.seqs"), ("before", "run.cfg"), ("before", "al.m"), ("asked", "re0.q"), ("after", "run.report")})

    def test_kept(self):
        """an answer is kept as the page that page.py makes of it"""
        for first, second in (("run.cfg", "run.report"), ("sp.a", "run.tree")):
            page = self.tool.get("page.html", view=0, first=first, second=second)
            self.file("question", f"{first} {second}\n")
            words = [sys.executable, os.path.join(TOP, "tools/page.py"), SPEC, OUTER, EVENTS, "question"]
            made = subprocess.run(words, cwd=self.folder, capture_output=True, check=True)
            self.assertEqual((page.status, page.text), (200, made.stdout.decode()))
            self.assertIn("attachment", page.fields["Content-Disposition"])
        self.assertEqual(self.tool.get("page.html", first="run.cfg").status, 500)

    def test_typed(self):
        """what is typed is text: it is escaped, and a name that is none is told"""
        for typed in ("<b>x</b>", "a b.c", "run.cfg\n", "\x1b[31m", "é.a", "r" * 65 + ".a", "-", "\udcff.a", "%00", "..", "$(id).a"):
            for query in ({"first": typed}, {"first": "run.cfg", "second": typed}, {"find": typed}):
                page = self.tool.get(**query)
                self.assertEqual(page.status, 200)
                self.assertNotIn("<b>", page.text)
                self.assertNotIn("\x1b", page.text)
                self.assertEqual("is no name of an item" in page.section("notice"), "find" not in query)
        self.assertEqual(self.tool.get(first="run.cfg", second="run.tree").answer(), "no")

    def test_search(self):
        """items are found by parts of their names, in capitals or not"""
        self.assertEqual(self.tool.get(view=1, find="C2", first="run.cfg").items("items", "id"), [f"rl{k}.c2" for k in range(57)])
        self.assertEqual(self.tool.get(find="run.report").items("items", "id"), ["run.report"])
        self.assertEqual(self.tool.get(find="c2").items("items", "id"), [])


class Guards(Tested):
    def setUp(self):
        super().setUp()
        self.tool = Tool(SPEC, EVENTS, OUTER)
        self.addCleanup(self.tool.__exit__)
        self.host = ("Host", f"127.0.0.1:{self.tool.port}")

    def assert_shut(self, page, status):
        """Tries that a reply is a refusal which says nothing of the run."""
        self.assertEqual(page.status, status)
        self.assertFalse(re.search(r"run\.|phylogeny|<", page.text))
        self.assertLess(len(page.text), 200)

    def test_token(self):
        """a request without the token, with another or with a part of it gets nothing"""
        token = self.tool.path.strip("/")
        self.assertGreaterEqual(len(token), 43)
        for path in ("/", "/?first=run.cfg", "/x/", f"/{token[:-1]}/", f"/{token}x/", f"/{token.swapcase()}/", f"//{token}/", "/favicon.ico", f"/{token}"):
            self.assert_shut(self.tool.request("GET", path), 404)
        with Tool(SPEC, EVENTS, OUTER) as other:
            self.assertNotEqual(other.path, self.tool.path)
            self.assert_shut(other.request("GET", self.tool.path), 404)

    def test_host(self):
        """a request with a foreign Host, without one or with two gets nothing"""
        port = self.tool.port
        for host in ("evil.example", f"evil.example:{port}", "127.0.0.1", f"localhost:{port}", f"127.0.0.1:{port + 1}", "", f"127.0.0.1:{port}.evil.example"):
            self.assert_shut(self.tool.request("GET", self.tool.path, [("Host", host)]), 421)
        self.assert_shut(self.tool.request("GET", self.tool.path, [("Accept", "*/*")]), 421)
        self.assert_shut(self.tool.request("GET", self.tool.path, [self.host, self.host]), 421)
        self.assert_shut(self.tool.request("GET", self.tool.path, [self.host, ("host", "evil.example")]), 421)
        self.assertEqual(self.tool.request("GET", self.tool.path, [self.host]).status, 200)

    def test_path(self):
        """a path with `..`, of a file or of another page gets nothing"""
        path = self.tool.path
        dots = ("..", "../", "./", "x/../", "../../../../etc/passwd", "%2e%2e/%2e%2e/etc/passwd", "..%2f..%2fetc%2fpasswd")
        for more in (*dots, "/etc/passwd", "spec", SPEC, "page.html/", "%00"):
            self.assert_shut(self.tool.request("GET", path + more), 404)
        self.assert_shut(self.tool.request("GET", f"http://127.0.0.1:{self.tool.port}{path}"), 404)
        for query in ("view=1", "view=-1", "view=0.0", "view=", "file=/etc/passwd", "view=0&view=0", "first", "a=1&b=2&c=3&d=4&e=5", "&"):
            self.assert_shut(self.tool.request("GET", path + "?" + query), 400)

    def test_method(self):
        """another method than GET, or a body, gets nothing"""
        for method in ("HEAD", "POST", "PUT", "DELETE", "OPTIONS", "TRACE", "get", "CONNECT"):
            page = self.tool.request(method, self.tool.path)
            self.assertEqual((page.status, "run." in page.text), (405, False))
        self.assert_shut(self.tool.request("GET", self.tool.path, [self.host, ("Content-Length", "3")], b"abc"), 400)
        self.assert_shut(self.tool.request("GET", self.tool.path, [self.host, ("Transfer-Encoding", "chunked")], b"0\r\n\r\n"), 400)

    def test_head(self):
        """10 MB of header, and bytes that are no request, get nothing, and the next request is answered"""
        host = f"Host: 127.0.0.1:{self.tool.port}".encode()
        first = b"GET " + self.tool.path.encode() + b" HTTP/1.1\r\n" + host
        long = b"x" * 10_000_000
        for head in (first + b"\r\nX: " + long, first + b"\r\n" + b"X: y\r\n" * 2_000_000, b"GET /" + long, long, first + b"\r\nX: " + long + b"\r\n\r\n"):
            self.assertRegex(self.tool.raw(head), rb"^HTTP/1\.1 431 ")
        for head in (b"\0\r\n\r\n", b"GET\r\n\r\n", b"GET " + self.tool.path.encode() + b"\r\n\r\n", first.replace(b"1.1\r", b"2.0\r") + b"\r\n\r\n",
                     first + b"\r\n folded\r\n\r\n", first + b"\r\nX : y\r\n\r\n", first + b"\r\nX: \xff\r\n\r\n", b"\r\n\r\n" + first + b"\r\n\r\n"):
            self.assertRegex(self.tool.raw(head), rb"^HTTP/1\.1 400 ")
        for cut in (b"", b"GET ", first, first + b"\r\n"):
            self.assertEqual(self.tool.raw(cut), b"")
        self.assertEqual(self.tool.get(first="run.cfg", second="run.report").answer(), "yes")

    def test_loopback(self):
        """it is served on 127.0.0.1 alone"""
        with open("/proc/net/tcp", encoding="ascii") as file:
            held = [line.split()[1] for line in file if line.split()[3] == "0A" and line.split()[1].endswith(f":{self.tool.port:04X}")]
        self.assertEqual(held, [f"0100007F:{self.tool.port:04X}"])
        self.assertRaises(OSError, socket.create_connection, ("127.0.0.2", self.tool.port), 5)

    def test_clients(self):
        """clients that say nothing do not keep others away, and many at one time get their answers"""
        silent = [socket.create_connection(("127.0.0.1", self.tool.port)) for _ in range(SILENT)]
        found, names = [], names_of(SPEC, OUTER, EVENTS)

        def ask(name):
            found.append((name, self.tool.get(first="run.cfg", second=name).answer()))

        work = [threading.Thread(target=ask, args=[name]) for name in names]
        for thread in work:
            thread.start()
        for thread in work:
            thread.join()
        for client in silent:
            client.close()
        self.assertEqual(sorted(found), sorted(zip(names, asked(OUTER, [("run.cfg", name) for name in names]))))


class Ends(Tested):
    def assert_ends(self, tool, folder):
        """Tries that the tool has ended, with the programs that it kept open, and left no file."""
        self.assertEqual((tool.child.wait(30), tool.child.stderr.read()), (0, b""))
        self.assertRaises(OSError, socket.create_connection, ("127.0.0.1", tool.port), 5)
        self.assertEqual(os.listdir(folder), [])

    def opened(self, **named):
        """Returns the tool with an `ask` that it keeps open, and its folder for temporary files."""
        folder = os.path.join(self.folder, "temporary")
        os.makedirs(folder, exist_ok=True)
        tool = Tool(SPEC, EVENTS, OUTER, env={**os.environ, "TMPDIR": folder}, **named)
        self.addCleanup(tool.__exit__)
        self.assertEqual(tool.get(first="run.cfg", second="run.report").answer(), "yes")
        return tool, folder

    def test_signals(self):
        """it ends by Ctrl-C, with its terminal and by SIGTERM, and leaves no program and no file"""
        for number in (signal.SIGINT, signal.SIGHUP, signal.SIGTERM):
            tool, folder = self.opened(stdin=subprocess.DEVNULL)
            kept = tool.children()
            self.assertEqual(len(kept), 1)
            tool.child.send_signal(number)
            self.assert_ends(tool, folder)
            self.assertFalse([process for process in kept if os.path.exists(f"/proc/{process}")])

    def test_ignored(self):
        """it ends with its terminal also where the signal was kept away, as `nohup` does"""
        parent, child = pty.openpty()
        tool, folder = self.opened(stdin=child, start_new_session=True, preexec_fn=lambda: signal.signal(signal.SIGHUP, signal.SIG_IGN))
        os.close(child)
        os.close(parent)
        self.assert_ends(tool, folder)

    def test_pipe(self):
        """it ends where its standard input hangs up, and not where that is empty or closed"""
        tool, folder = self.opened(stdin=subprocess.PIPE)
        tool.child.stdin.close()
        self.assert_ends(tool, folder)
        for named in ({"stdin": subprocess.DEVNULL}, {"stdin": None, "preexec_fn": lambda: os.close(0)}):
            tool, _ = self.opened(**named)
            time.sleep(0.3)
            self.assertEqual(tool.get(first="run.cfg", second="run.tree").answer(), "no")

    def test_killed(self):
        """a tool that was killed leaves no program and no file"""
        tool, folder = self.opened()
        kept = tool.children()
        tool.child.kill()
        tool.child.wait()
        late = time.monotonic() + 30
        while time.monotonic() < late and any(os.path.exists(f"/proc/{process}") for process in kept):
            time.sleep(0.05)
        self.assertFalse([process for process in kept if os.path.exists(f"/proc/{process}")])
        self.assertEqual(os.listdir(folder), [])


class Bad(Tested):
    def test_words(self):
        """too few words, and files that are not there or no files, are told"""
        absent = os.path.join(self.folder, "absent")
        for words in ((), (SPEC,), (SPEC, EVENTS)):
            self.refused("the words are not SPEC EVENTS VIEW [VIEW ..]; see --help", *words)
        self.refused(f"{absent}: No such file or directory", absent, EVENTS, OUTER)
        self.refused(f"{absent}: No such file or directory", SPEC, EVENTS, OUTER, absent)
        self.refused(f"{self.folder}: not a regular file", SPEC, self.folder, OUTER)
        self.refused("/dev/null: not a regular file", SPEC, EVENTS, "/dev/null")
        self.refused("\\xff: `wfprov` takes no path that is not UTF-8", SPEC, EVENTS, b"\xff")

    def test_files(self):
        """a file that the program refuses is told in its words, with the command"""
        bad = self.file("bad", "{")
        self.refused(f"wfprov ingest {bad} {EVENTS}: refused: spec: NotJson", bad, EVENTS, OUTER)
        self.refused(f"wfprov ingest {SPEC} {bad}: refused: events line 1: NotJson", SPEC, bad, OUTER)
        self.refused(f"wfprov view {SPEC} {bad}: refused: view: NotJson", SPEC, EVENTS, OUTER, bad)

    def test_odd(self):
        """files with names of any signs are read, their names are shown as text, and the commands with them work"""
        folder = os.path.join(self.folder, ODD)
        os.mkdir(folder)
        paths = [os.path.join(folder, name) for name in ("spec", "events", "view")]
        for path, source in zip(paths, (SPEC, EVENTS, OUTER)):
            shutil.copy(source, path)
        os.symlink(os.environ["WFPROV"], os.path.join(self.folder, "wfprov"))
        with Tool(*paths) as tool:
            page = tool.get(first="run.cfg", second="run.report")
            ran = [subprocess.run(["bash", "-c", line], env={**os.environ, "PATH": self.folder + ":" + os.environ["PATH"]},
                                  capture_output=True, check=True).stdout for line in page.commands()]
            kept = tool.get("page.html", first="run.cfg", second="run.report")
        self.assertEqual((page.answer(), ran[0], ran[1], ran[3]), ("yes", b"yes\n", b"yes\n", b"yes\n"))
        self.assertEqual(kept.status, 200)
        for text in (page.text, kept.text):
            self.assertNotIn("<b>", text)
            self.assertNotIn("\x1b", text)
            self.assertIn(html.escape("<b>&amp;\"'`$(false);|\\\\n\\x1b[31m %s{a} é\\u202e#?=-/spec"), text)

    def test_changing(self):
        """a file that changes while it is read is refused"""
        events = self.file("events", open(EVENTS, encoding="ascii").read())
        done = threading.Event()

        def write():
            with open(events, "a", encoding="ascii") as file:
                while not done.is_set():
                    file.write("\n")
                    file.flush()

        writer = threading.Thread(target=write)
        writer.start()
        try:
            self.refused(f"{events}: changed while it was read", SPEC, events, OUTER)
        finally:
            done.set()
            writer.join()

    def test_changed(self):
        """a file that changes later changes no answer; the page says so, and no page is kept"""
        for change in (lambda path: self.file("spec", "{"), os.remove, lambda path: (os.remove(path), os.mkdir(path))):
            spec = self.file("spec", open(SPEC, encoding="ascii").read())
            with Tool(spec, EVENTS, OUTER) as tool:
                os.utime(spec)
                self.assertEqual(tool.get().section("notice"), "")
                change(spec)
                page = tool.get(first="run.cfg", second="run.report")
                self.assertEqual(page.answer(), "yes")
                self.assertIn(f"{spec} has changed since it was read", page.section("notice"))
                self.assertEqual(tool.get("page.html", first="run.cfg", second="run.report").status, 500)
            shutil.rmtree(spec, ignore_errors=True)

    def test_dies(self):
        """a program that dies is told, and the next question starts another"""
        with Tool(SPEC, EVENTS, OUTER) as tool:
            self.assertEqual(tool.get(first="run.cfg", second="run.tree").answer(), "no")
            for process in tool.children():
                os.kill(process, signal.SIGKILL)
            page = tool.get(first="run.cfg", second="run.report")
            self.assertEqual((page.answer(), page.section("notice")), ("", "wfprov ask: ended by signal 9"))
            self.assertEqual(tool.get(first="run.cfg", second="run.report").answer(), "yes")
        for command, query in (("explain", {"first": "run.cfg", "second": "run.report"}), ("lineage", {"first": "run.cfg"}), ("export", {})):
            with Tool(SPEC, EVENTS, OUTER, env=self.program(f'[ "$1" != {command} ] || kill -9 $$')) as tool:
                page = tool.get(**query)
                self.assertEqual(page.answer(), "")
                self.assertRegex(page.section("notice"), rf"^wfprov {command} .*: ended by signal 9$")

    def test_lies(self):
        """a program that writes what it never writes, or contradicts itself, gives no answer"""
        cases = {
            '[ "$1" != ask ] || { while read line; do echo maybe; done; exit; }': "which is no answer",
            '[ "$1" != explain ] || { echo no; exit; }': "wfprov contradicts itself",
            '[ "$1" != explain ] || exit 0': "wfprov contradicts itself",
            '[ "$1" != explain ] || { printf "run.seqs\\nvia al\\nal.m\\n"; exit; }': "wfprov contradicts itself",
            '[ "$1" != verify ] || { echo no 2; exit; }': "wfprov contradicts itself",
        }
        for script, message in cases.items():
            with Tool(SPEC, EVENTS, OUTER, env=self.program(script)) as tool:
                page = tool.get(first="run.cfg", second="run.report")
                self.assertEqual(page.answer(), "")
                self.assertIn(message, page.section("notice"))

        for told in ("export ] || { echo", 'export ] || { printf "item \\377.a\\n"', "view ] || { echo Nowhere shown"):
            script = f'[ "$1" != {told}; exit; }}'
            with Tool(SPEC, EVENTS, OUTER, env=self.program(script)) as tool:
                page = tool.get()
                self.assertTrue(page.status == 500 and "wrote what it never writes" in page.text or "export: a line that is no" in page.section("notice"))

    def test_none(self):
        """a program that is not there, or is none, is told"""
        self.refused("wfprov check: it wrote what it never writes: list index out of range", SPEC, EVENTS, OUTER, env={**os.environ, "WFPROV": "/bin/true"})
        self.refused(f"{self.folder}/none: No such file or directory", SPEC, EVENTS, OUTER, env={**os.environ, "WFPROV": self.folder + "/none"})

    def test_output(self):
        """standard output that is closed or full is told, and no page is open"""
        words = [sys.executable, os.path.join(TOP, "tools/browse.py"), SPEC, EVENTS, OUTER]
        for told, what in ((">/dev/full", "No space left on device"), (">&-", "standard output is closed")):
            ran = subprocess.run(["sh", "-c", f'"$@" {told}', "sh", *words], stdin=subprocess.DEVNULL, capture_output=True, check=False, timeout=60, text=True)
            self.assertEqual((ran.returncode, ran.stderr), (2, f"browse.py: writing: {what}\n"))


class Sizes(Tested):
    def test_without_graphviz(self):
        """without Graphviz the links are listed, and items in them can be clicked"""
        os.mkdir(os.path.join(self.folder, "none"))
        with Tool(SPEC, EVENTS, OUTER, env={**os.environ, "PATH": os.path.join(self.folder, "none")}) as tool:
            page = tool.get(first="run.cfg")
        told = re.findall(r"<li>(?:<code>|<a[^>]*>)([^<]*)(?:</code>|</a>) to (?:<code>|<a[^>]*>)([^<]*)<", page.text)
        wanted = [tuple(line.split()[1:]) for line in called("export", SPEC, OUTER, EVENTS) if line.startswith("link ")]
        self.assertEqual(sorted(told), sorted(wanted))
        self.assertIn('href="?view=0&amp;first=run.cfg&amp;second=re0.q"', page.text)
        self.assertNotIn("<svg", page.text)

    def test_large(self):
        """of a run that is too large to be drawn what surrounds the question is shown, and it is a part of the run"""
        folder = os.path.join(TOP, "examples/twisting")
        spec, view = os.path.join(folder, "spec"), os.path.join(folder, "view")
        events = self.file("events", "".join(line + "\n" for line in called("gen", spec, "300", "1")))
        run = called("export", spec, view, events)
        items = [line[5:] for line in run if line.startswith("item ")]
        links = {tuple(line.split()[1:]) for line in run if line.startswith("link ")}
        first, second = items[0], items[-1]
        os.mkdir(os.path.join(self.folder, "none"))
        with Tool(spec, events, view, env={**os.environ, "PATH": os.path.join(self.folder, "none")}) as tool:
            page, asks = tool.get(), tool.get(first=first, second=second)
            self.assertIn(f"The run has {len(links):,} links under this view, which are too many to be drawn", page.section("picture"))
            self.assertEqual(page.items("items", "id"), items[:60])
            told = set(re.findall(r"<li>(?:<code>|<a[^>]*>)([^<]*)(?:</code>|</a>) to (?:<code>|<a[^>]*>)([^<]*)<", asks.text))
            self.assertTrue(told < links)
            self.assertTrue({first, second} <= {port for link in told for port in link})
            self.assertLess(len(told), 400)
            chain = called("explain", spec, view, events, first, second)
            self.assertEqual(asks.answer(), "no" if chain == ["no"] else "yes")

    def test_items(self):
        """a search among 1,000,000 items takes less than half a second, and finds what is there"""
        items = Items([b"n%d.out" % number for number in range(MANY)])
        sevens = ["n77777.out", *(f"n77777{k}.out" for k in range(10))]
        for text, names, total in (("N999999.", ["n999999.out"], 1), ("n123456.out", ["n123456.out"], 1), ("x", [], 0), ("N77777", sevens, 11)):
            begun = time.process_time()
            found = items.search(text, 60)
            self.assertLess(time.process_time() - begun, 0.5)
            self.assertEqual((found.names, found.total, found.is_cut), (names, total, False))
        found = items.search("out", 60)
        self.assertEqual((found.names, found.is_cut), ([f"n{k}.out" for k in range(60)], True))
        self.assertEqual(items.search("", 3).names, ["n0.out", "n1.out", "n2.out"])


SVG = "//*[local-name()='svg']//*[local-name()='text'][.='{}']"
LIST = "//section[@id='items']//a[.='{}']"
WORD = "//section[@id='answer']/p[@class='word']"


@unittest.skipUnless(chromium.is_there(), "Chromium and its driver are not installed")
class Clicks(Tested):
    def opened(self, *words):
        """Returns the address of the page of a call."""
        tool = Tool(*words)
        self.addCleanup(tool.__exit__)
        return tool.address

    def test_clicks(self):
        """in a browser clicks ask: 50 pairs under two views have the answers of `ask`, nothing is fetched and nothing complained of"""
        spec, events, labels = (os.path.join(TOP, "examples/phylogeny-once", name) for name in ("spec", "events", "labels"))
        views, draw = [self.everything, self.file("outer", '{"expand":["Main"]}')], random.Random(3)
        with chromium.Browser() as browser:
            browser.open(self.opened(spec, events, *views))
            for view in views:
                browser.click(f"//nav/a[.='{view}']")
                names = names_of(spec, view, events)
                pairs, found = [(first, second) for first in draw.sample(names, 5) for second in draw.sample(names, PAIRS // 10)], []
                for number, (first, second) in enumerate(pairs):
                    if number % (PAIRS // 10) == 0:
                        browser.click((SVG if DRAWS else LIST).format(first))
                    browser.click((SVG if DRAWS else LIST).format(second))
                    found.append(browser.text(WORD))
                    if (number + 1) % (PAIRS // 10) == 0:
                        browser.click("//a[.='begin anew']")
                self.assertEqual(found, asked(view, pairs, spec, labels))
                self.assertEqual(set(found), {"yes", "no"})
            self.assertEqual(browser.run("return performance.getEntriesByType('resource').length"), 0)
            self.assertEqual(browser.complaints(), [])

    def test_tutorial(self):
        """in a browser the question of the tutorial is answered by two clicks, and one about an item that is hidden by typing"""
        with chromium.Browser() as browser:
            browser.open(self.opened(SPEC, EVENTS, OUTER, self.everything))
            browser.click((SVG if DRAWS else LIST).format("run.cfg"))
            for second, word in (("run.tree", "no"), ("run.report", "yes")):
                browser.click((SVG if DRAWS else LIST).format(second))
                self.assertEqual(browser.text(WORD), word)
            browser.write("//input[@name='first']", "sp.a")
            browser.write("//input[@name='second']", "run.tree")
            browser.click("//button[.='Ask']")
            self.assertEqual(browser.text(WORD), "hidden")
            browser.click("//a[.='the other way round']")
            self.assertEqual(browser.text(WORD), "hidden")
            browser.click(f"//nav/a[.='{self.everything}']")
            self.assertEqual(browser.text(WORD), "no")
            browser.write("//input[@name='find']", "rl5")
            browser.click("//button[.='Find items']")
            self.assertEqual(browser.text("//section[@id='items']/p"), "16 items with rl5 in the name")

    def test_elsewhere(self):
        """in a browser a page from elsewhere gets nothing, even with the address"""
        class Elsewhere(http.server.BaseHTTPRequestHandler):
            def do_GET(self):
                self.send_response(200)
                self.send_header("Content-Type", "text/html")
                self.end_headers()
                self.wfile.write(b"<!DOCTYPE html><title>elsewhere</title><body>")

            def log_message(self, *_):
                pass

        other = http.server.HTTPServer(("127.0.0.1", 0), Elsewhere)
        self.addCleanup(other.server_close)
        self.addCleanup(other.shutdown)
        threading.Thread(target=other.serve_forever, daemon=True).start()
        script = """const [address, done] = arguments;
            const frame = document.createElement('iframe');
            const inside = () => { try { return frame.contentDocument.body.innerText || 'nothing' } catch { return 'nothing' } };
            const fetched = () => fetch(address).then(reply => reply.text()).catch(() => 'nothing');
            frame.onload = () => fetched().then(text => done([text, inside(), frame.contentWindow.length]));
            frame.src = address;
            document.body.append(frame)"""
        with chromium.Browser() as browser:
            browser.open(f"http://127.0.0.1:{other.server_port}/")
            found = browser.call("POST", "/execute/async", {"script": script, "args": [self.opened(SPEC, EVENTS, OUTER)]})
            self.assertEqual(found, ["nothing", "nothing", 0])
            said = "\n".join(browser.complaints())
        self.assertIn("frame", said)
        self.assertIn("CORS", said)


def run_parts(program):
    """Runs the parts side by side, and returns how many tests passed and how many failed. A part that ends otherwise has failed."""
    words = [sys.executable, os.path.abspath(__file__), program]
    names = [part.__name__ for part in Tested.__subclasses__()]
    parts = [subprocess.Popen([*words, name], stdout=subprocess.PIPE, stderr=subprocess.STDOUT, text=True) for name in names]
    passed = failed = 0
    for part in parts:
        *lines, last = part.communicate()[0].splitlines() or [""]
        counts = re.fullmatch(r"(\d+) passed, (\d+) failed", last)
        print("\n".join(lines if counts else [*lines, last, "FAILED: a part of the tests ended"]), flush=True)
        passed, failed = (passed + int(counts[1]), failed + int(counts[2])) if counts else (passed, failed + 1)
    return passed, failed


def main(words):
    os.environ["WFPROV"] = os.path.abspath(words[0])
    return results.finish(*(results.run(__name__, words[1:]) if words[1:] else run_parts(words[0])))


if __name__ == "__main__":
    sys.exit(main(sys.argv[1:]))
