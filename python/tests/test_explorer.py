"""The explorer without a browser: who is let in, what is refused, positions as arrays, and answers against a plain filter."""

import contextlib
import json
import os
import random
import re
import signal
import socket
import stat
import struct
import tempfile
import threading
import time
import unittest
from array import array
from pathlib import Path
from unittest import mock

import gract
from gract import questions
from gract.archive import days
from gract.explorer import asking_by_hand, binary, charts, command, guard, polygons, server, shores, within
from gract.explorer.explorer import Explorer

from . import plain

AT = 52097
GRID = {"cell": 1, "tick": 6, "unit": 3600}


def grid_of_storms():
    return gract.Grid.degrees(10, **GRID, names=plain.NAMES)


class Served(unittest.TestCase):
    """A server over the storms, asked by plain connections."""

    @classmethod
    def setUpClass(cls):
        cls.folder = tempfile.TemporaryDirectory()
        cls.index = Path(cls.folder.name) / "storms.idx"
        cls.rows = plain.read_rows(plain.STORMS)
        gract.build(cls.rows, cls.index, period=1461, grid=grid_of_storms())
        cls.plain = plain.Plain(plain.gridded(cls.rows, 1, 6))

    @classmethod
    def tearDownClass(cls):
        cls.folder.cleanup()

    def setUp(self):
        self.stack = contextlib.ExitStack()
        self.addCleanup(self.stack.close)
        self.charts = self.stack.enter_context(charts.Charts(charts.Source(str(self.index))))
        explorer = Explorer(self.charts, shores.coast_of(self.charts.play.chart.grid, None))
        self.server = self.stack.enter_context(server.Server(explorer.routes, explorer.marks))
        threading.Thread(target=self.server.serve_forever, args=(0.02,), daemon=True).start()
        self.stack.callback(self.server.shutdown)
        self.guard = self.server.guard

    def send(self, data):
        """The status, the headers and the body of what bytes are answered; None where the connection is closed without a word."""
        with socket.create_connection((guard.HOST, self.guard.port), 30) as connection:
            connection.sendall(data)
            found = b"".join(iter(lambda: connection.recv(1 << 16), b""))
        if not found:
            return None
        head, _, body = found.partition(b"\r\n\r\n")
        first, *lines = head.decode("latin-1").split("\r\n")
        return int(first.split()[1]), dict(line.split(": ", 1) for line in lines), body

    def head(self, method, path, headers=(), **changed):
        """A request's lines up to its body; a header that is changed to None is left out."""
        asks = {"X-Gract-Secret": self.guard.secret, "Content-Type": "application/json", "Origin": self.guard.origin} if method == "POST" else {}
        told = {"Host": self.guard.host, "Connection": "close", **asks, **{name.replace("_", "-"): value for name, value in changed.items()}}
        lines = [f"{method} {path} HTTP/1.1", *(f"{name}: {value}" for name, value in told.items() if value is not None), *headers]
        return "\r\n".join(lines).encode()

    def post(self, path, asked, headers=(), **changed):
        body = asked if isinstance(asked, bytes) else json.dumps(asked).encode()
        changed.setdefault("Content_Length", len(body))
        return self.send(self.head("POST", path, headers, **changed) + b"\r\n\r\n" + body)

    def get(self, path, headers=(), **changed):
        return self.send(self.head("GET", path, headers, **changed) + b"\r\n\r\n")

    def asked(self, path, asked):
        status, _, body = self.post(path, asked)
        self.assertEqual(status, 200, body)
        return body

    # Who is let in.

    def test_page(self):
        """The files of the page, with all headers, and no other file."""
        status, headers, body = self.get("/")
        self.assertEqual((status, headers["Content-Type"]), (200, "text/html; charset=utf-8"))
        self.assertEqual({name: headers[name] for name in guard.HEADERS}, guard.HEADERS)
        self.assertIn("default-src 'none'", headers["Content-Security-Policy"])
        self.assertIn("frame-ancestors 'none'", headers["Content-Security-Policy"])
        self.assertNotIn("unsafe", headers["Content-Security-Policy"])
        self.assertNotIn("Set-Cookie", headers)
        named = re.findall(r'(?:src|href)="([^"]+)"', body.decode())
        files = {f"/{name}" for name in named}
        for path in sorted(files):
            self.assertEqual(self.get(path)[0], 200, path)
        for path in ("/index.html", "/..%2fserver.py", "/../server.py", "//etc/passwd", "/main.js?x", "/etc/passwd", "/main.js/", "/.%2e/command.py", "*"):
            self.assertEqual(self.get(path)[0], 404, path)

    def test_modules(self):
        """Each module is shorter than 400 lines, and none makes HTML of a text or asks for something elsewhere."""
        for file in server.PAGE.glob("*.js"):
            text = file.read_text(encoding="utf-8")
            self.assertLess(len(text.splitlines()), 400, file.name)
            for word in ("innerHTML", "outerHTML", "insertAdjacentHTML", "document.write", "eval(", "https://", "importScripts", "document.cookie"):
                self.assertNotIn(word, text, file.name)

    def test_headers(self):
        """Host, Origin and the secret are exact, and stand there once."""
        here, origin, secret = self.guard.host, self.guard.origin, self.guard.secret
        self.assertEqual(self.post("/facts", {})[0], 200)
        wrong = [
            {"Host": f"localhost:{self.guard.port}"}, {"Host": "127.0.0.1"}, {"Host": f"evil.example:{self.guard.port}"}, {"Host": None},
            {"Host": f"{here}."}, {"Origin": "null"}, {"Origin": None}, {"Origin": f"{origin}/"}, {"Origin": "http://evil.example"},
            {"Origin": origin.replace("http", "https")}, {"X_Gract_Secret": None}, {"X_Gract_Secret": ""}, {"X_Gract_Secret": secret[:-1]},
            {"X_Gract_Secret": secret.upper() if secret.upper() != secret else "0" * 32}, {"X_Gract_Secret": "\u00e9" * 16},
        ]
        for changed in wrong:
            self.assertEqual(self.post("/facts", {}, **changed)[0], 403, changed)
        for twice in (f"Host: {here}", f"Origin: {origin}", f"X-Gract-Secret: {secret}"):
            self.assertEqual(self.post("/facts", {}, [twice])[0], 403, twice)
        self.assertEqual(self.get("/", Origin="http://evil.example")[0], 403)
        self.assertEqual(self.get("/", Host="evil.example")[0], 403)
        self.assertEqual(self.get(f"/facts?secret={secret}")[0], 404)

    def test_requests(self):
        """What is no question is refused, by its status, and the next is answered."""
        for method in ("PUT", "DELETE", "OPTIONS", "HEAD", "TRACE"):
            self.assertEqual(self.send(self.head(method, "/") + b"\r\n\r\n")[0], 501, method)
        self.assertEqual(self.post("/nothing", {})[0], 404)
        self.assertEqual(self.post("/facts", {}, Content_Type="text/plain")[0], 415)
        self.assertEqual(self.post("/facts", b"", Content_Length=None)[0], 411)
        self.assertEqual(self.post("/facts", b"{}", ["Content-Length: 2"])[0], 411)
        self.assertEqual(self.post("/facts", b"2\r\n{}\r\n0\r\n\r\n", ["Transfer-Encoding: chunked"])[0], 411)
        self.assertEqual(self.post("/facts", b"{}", Content_Length=server.MOST_BODY + 1)[0], 413)
        self.assertEqual(self.send(b"GET / HTTP/1.1\r\nX: " + b"x" * server.MOST_HEAD)[0], 431)
        self.assertEqual(self.send(b"nonsense\r\n\r\n")[0], 400)
        for body in (b"", b"{", b"[]", b"null", b'"x"', b"[" * 60000, b"\xff\xfe", b'{"kind":'):
            self.assertEqual(self.post("/ask", body)[0], 400, body[:20])
        self.assertIsNone(self.send(b""))
        self.assertEqual(self.post("/facts", b"{}GET / HTTP/1.1", Content_Length=2)[0], 400)
        self.assertEqual(self.post("/facts", b"{" + b" " * (server.MOST_BODY - 2) + b"}")[0], 200)

    def test_slow(self):
        """A request that does not come is ended, and others are answered meanwhile."""
        with mock.patch.object(server, "COMES", 0.4):
            with socket.create_connection((guard.HOST, self.guard.port), 30) as silent, \
                    socket.create_connection((guard.HOST, self.guard.port), 30) as slow:
                slow.sendall(b"GET / HT")
                self.assertEqual(self.post("/facts", {})[0], 200)
                self.assertIn(b" 408 ", slow.recv(1 << 16))
                self.assertEqual(silent.recv(1), b"")

    def test_kept(self):
        """A connection is kept for the next request, and closed after what is refused."""
        with socket.create_connection((guard.HOST, self.guard.port), 30) as connection:
            for body, status in ((b"{}", b"200"), (b"{}", b"200"), (b"[]", b"400")):
                connection.sendall(self.head("POST", "/facts", Connection=None, Content_Length=2) + b"\r\n\r\n" + body)
                data = connection.recv(1 << 16)
                self.assertTrue(data.startswith(b"HTTP/1.1 " + status), data)
                length = int(re.search(rb"Content-Length: (\d+)", data).group(1))
                while len(data.partition(b"\r\n\r\n")[2]) < length:
                    data += connection.recv(1 << 16)
            self.assertEqual(connection.recv(1), b"")

    def test_eight(self):
        """Eight connections are served at once, and others wait."""
        began, go_on = threading.Semaphore(0), threading.Event()

        def slow(asked, is_gone):
            began.release()
            go_on.wait(60)
            return server.told({})

        self.server.routes["/facts"] = slow
        threads = [threading.Thread(target=self.post, args=("/facts", {})) for _ in range(20)]
        for thread in threads:
            thread.start()
        for _ in range(server.MOST_CONNECTIONS):
            self.assertTrue(began.acquire(timeout=60))
        self.assertFalse(began.acquire(timeout=0.3))
        go_on.set()
        for thread in threads:
            thread.join()

    def test_start_file(self):
        """The start file is this user's alone, has the address, and goes."""
        with guard.StartFile(self.guard.address("at=1&view=2")) as start:
            self.assertEqual(stat.S_IMODE(start.file.stat().st_mode), 0o600)
            self.assertEqual(stat.S_IMODE(start.file.parent.stat().st_mode), 0o700)
            self.assertIn(f"{self.guard.origin}/#secret={self.guard.secret}&amp;at=1&amp;view=2", start.file.read_text())
        self.assertFalse(start.file.parent.exists())
        self.assertEqual(len(bytes.fromhex(self.guard.secret)), 16)
        self.assertNotEqual(self.guard.secret, guard.Guard(1).secret)

    # What is asked.

    def blocks(self, body):
        found, at = [], 0
        while at < len(body):
            instant, count, width = binary.HEAD.unpack_from(body, at)
            at += binary.HEAD.size
            columns = []
            for kind in "I" + 2 * ("i" if width == 4 else "d"):
                size = count * struct.calcsize(kind)
                columns.append(array(kind, body[at:at + size]).tolist())
                at += size + -size % 8
            found.append((int(instant), list(zip(*columns))))
        return found

    def test_slices(self):
        """Slices as arrays are those of a plain filter, of everything and of a rectangle."""
        instants = [AT, AT + 1, 8012, 74338, 60000, AT - 5]
        for rect in (None, [-980, 180, -810, 310]):
            has = (lambda x, y: True) if rect is None else questions.Rect(*rect).contains
            found = self.blocks(self.asked("/slices", {"instants": instants, "rect": rect}))
            self.assertEqual(found, [(instant, self.plain.slice(instant, has)) for instant in instants])
        for asked in ({}, {"instants": []}, {"instants": [1] * 9}, {"instants": "x"}, {"instants": [1.5]}, {"instants": [True]},
                      {"instants": [2**50]}, {"instants": [1], "rect": [1]}, {"instants": [1], "rect": "x"}, {"instants": [1], "rect": [1, 2, 3, 2**60]}):
            self.assertEqual(self.post("/slices", asked)[0], 400, asked)

    def test_paths(self):
        """Paths and first rows as arrays are those of a plain filter."""
        body, at = self.asked("/paths", {"objects": [278, 281, 9999], "since": 0, "until": 99999}), 0
        for number in (278, 281, 9999):
            first, count, width = binary.HEAD.unpack_from(body, at)
            self.assertEqual(binary.OBJECT.unpack_from(body, at + binary.HEAD.size), (number, 0))
            at += binary.HEAD.size + binary.OBJECT.size
            columns = []
            for kind in "Iii":
                columns.append(array(kind, body[at:at + 4 * count]).tolist())
                at += 4 * count + -4 * count % 8
            rows = [(int(first) + after, x, y) for after, x, y in zip(*columns)]
            self.assertEqual((width, rows), (4, self.plain.path(number, 0, 99999)))
        self.assertEqual(at, len(body))
        hits = self.asked("/objects", {})
        first, count, _ = binary.HEAD.unpack_from(hits)
        self.assertEqual((int(first), count), (self.plain.first, len(self.plain.objects)))
        self.assertEqual(array("I", hits[16:16 + 4 * count]).tolist(), self.plain.objects)
        self.assertEqual(self.post("/paths", {"objects": [1] * 201, "since": 0, "until": 1})[0], 400)

    def test_facts(self):
        """Facts, names and the marks of each answer."""
        status, headers, body = self.post("/facts", {})
        facts = json.loads(body)
        self.assertEqual((facts["first"], facts["last"], facts["objects"], facts["isWhole"]), (8012, 74338, 512, True))
        self.assertEqual((headers["X-Gract-Version"], headers["X-Gract-Replaced"]), ("1", "0"))
        self.assertEqual(json.loads(self.asked("/names", {}))["278"], "Katrina")

    def call(self, told):
        """The rows of the Python call that an answer tells."""
        with gract.open(self.index) as index:
            room = {"gract": gract, "index": index, "within": within}
            *before, last = told["call"].split("\nwithin.") if "\nwithin." in told["call"] else [told["call"]]
            for text in before:
                exec(text, room)
            return [list(row) for row in eval(last if not before else f"within.{last}", room)]

    def lines(self, told):
        """The rows of the lines that an answer tells, one list for each."""
        with gract.open(self.index) as index:
            return [[list(row) for row in rows] for rows in index.ask(told["lines"])]

    def test_questions(self):
        """Each answer is that of a plain filter, of its line, and of its Python call."""
        shapes = [{"box": [-98, 18, -81, 31]}, {"around": [-90.07, 29.95], "metres": 90000}, {"rect": [-980, 180, -810, 310]}, {"disc": [-900, 250, 60]}]
        for shape in shapes:
            with gract.open(self.index) as index:
                region = asking_by_hand.area_of(index, shape).zones[0]
            told = json.loads(self.asked("/ask", {"kind": "interval", "since": 52000, "until": 52400, "shape": shape}))
            wanted = [list(row) for row in self.plain.interval(52000, 52400, region.contains)]
            self.assertTrue(wanted)
            self.assertEqual((told["rows"], self.call(told), self.lines(told)), (wanted, wanted, [wanted]), shape)
            told = json.loads(self.asked("/ask", {"kind": "visits", "since": 52000, "until": 52400, "shape": shape, "gap": 3}))
            with gract.open(self.index) as index:
                wanted = [list(row) for row in index.visits(region, 52000, 52400, gap=3)]
            self.assertEqual((told["rows"], self.call(told)), (wanted, wanted), shape)
            told = json.loads(self.asked("/ask", {"kind": "slice", "at": AT, "shape": shape}))
            wanted = [list(row) for row in self.plain.slice(AT, region.contains)]
            self.assertEqual((told["rows"], self.call(told), self.lines(told)), (wanted, wanted, [wanted]), shape)

    def test_objects(self):
        """Paths, nearest ones and meetings, by lines and calls."""
        told = json.loads(self.asked("/ask", {"kind": "path", "object": 278}))
        wanted = [list(row) for row in self.plain.path(278, 0, 99999)]
        self.assertEqual((told["rows"], self.call(told), self.lines(told)), (wanted, wanted, [wanted]))
        told = json.loads(self.asked("/ask", {"kind": "nearest", "at": 74077, "count": 2, "cell": [-802, 258]}))
        wanted = [list(row) for row in self.plain.nearest(2, 74077, -802, 258)]
        self.assertEqual((told["rows"], self.call(told), self.lines(told)), (wanted, wanted, [wanted]))
        told = json.loads(self.asked("/ask", {"kind": "nearest", "at": 74077, "count": 2, "cell": [-865, 282], "without": 502}))
        self.assertEqual(told["rows"], [list(row) for row in self.plain.nearest(9, 74077, -865, 282) if row[0] != 502][:2])
        for reach in ({"reach": 150}, {"metres": 1500000}):
            told = json.loads(self.asked("/ask", {"kind": "meet", "left": 281, "right": 282, **reach}))
            self.assertTrue(told["rows"])
            self.assertEqual((self.call(told), self.lines(told)), (told["rows"], [told["rows"]]))

    def test_polygons(self):
        """A polygon's zones have each cell that has a point of it, and the answers of all zones together are those of a plain filter."""
        random_ = random.Random(3)
        for _ in range(12):
            ring = [[round(random_.uniform(-98, -40), 3), round(random_.uniform(10, 45), 3)] for _ in range(random_.randint(3, 6))]
            with gract.open(self.index) as index:
                zones, _ = polygons.zones_of(index.grid, ring, asking_by_hand.SQUARES)
            area = within.Area(zones)
            for x, y in ring:
                self.assertTrue(area.contains(*grid_of_storms().cell_of(x, y)))
            for kind, rows in (("interval", self.plain.interval(50000, 54000, area.contains)), ("visits", None)):
                told = json.loads(self.asked("/ask", {"kind": kind, "since": 50000, "until": 54000, "shape": {"polygon": ring}}))
                self.assertEqual(self.call(told), told["rows"])
                if rows is not None:
                    self.assertEqual(told["rows"], [list(row) for row in rows])
                else:
                    # Each visit is in the area from its first row to its last, and rows around it are not.
                    self.assertEqual({row[0] for row in told["rows"]}, {row[0] for row in self.plain.interval(50000, 54000, area.contains)})
                    for number, entry, _, _, exit_, _, _, count in told["rows"]:
                        stops = self.plain.path(number, entry, exit_)
                        self.assertTrue(len(stops) == count and all(area.contains(x, y) for _, x, y in stops))

    def test_refused(self):
        """Questions that are none are refused by their argument, slot words too, and the children live on."""
        pids = [turns.chart._child.pid for turns in (self.charts.play, self.charts.hand)]
        shape = {"box": [-98, 18, -81, 31]}
        wrong = [
            {}, {"kind": "hold"}, {"kind": "more"}, {"kind": "free"}, {"kind": ["interval"]}, {"kind": None}, {"kind": "interval"},
            {"kind": "interval", "shape": {}}, {"kind": "interval", "shape": 5}, {"kind": "interval", "shape": {"box": [1, 2, 3]}},
            {"kind": "interval", "shape": {"box": [-98, 31, -81, 18]}}, {"kind": "interval", "shape": {"box": ["-98", 31, -81, 18]}},
            {"kind": "interval", "shape": {"rect": [0.5, 0, 1, 1]}}, {"kind": "interval", "shape": {"rect": [0, 0, 2**60, 1]}},
            {"kind": "interval", "shape": {"disc": [0, 0, -1]}}, {"kind": "interval", "shape": {"around": [0, 0]}},
            {"kind": "interval", "shape": {"around": [0, 89.9], "metres": 1e7}}, {"kind": "interval", "shape": {"around": [0, 0], "metres": "5"}},
            {"kind": "interval", "shape": {"polygon": []}}, {"kind": "interval", "shape": {"polygon": [[0, 0], [1, 1]]}},
            {"kind": "interval", "shape": {"polygon": [[0, 0], [1, 1], [0]]}}, {"kind": "interval", "shape": {"polygon": [[0, 0], [1, 1], [0, 1e308]]}},
            {"kind": "interval", "shape": {"polygon": [[0, 0]] * 501}}, {"kind": "interval", "since": "never", "shape": shape},
            {"kind": "interval", "since": 2**70, "shape": shape}, {"kind": "interval", "since": True, "shape": shape},
            {"kind": "visits", "gap": -1, "shape": shape}, {"kind": "visits", "gap": "long", "shape": shape}, {"kind": "slice", "shape": shape},
            {"kind": "path"}, {"kind": "path", "object": "nobody"}, {"kind": "path", "object": -1}, {"kind": "path", "object": 1.5},
            {"kind": "path", "object": "1\nfree 0"}, {"kind": "nearest", "at": 1, "count": 5}, {"kind": "nearest", "at": 1, "count": -1, "cell": [0, 0]},
            {"kind": "nearest", "at": 1, "count": "5", "cell": [0, 0], "without": 3}, {"kind": "meet", "left": 1, "right": 2},
            {"kind": "meet", "left": 1, "right": 2, "reach": -1}, {"kind": "meet", "left": 1, "right": 2, "metres": "x"},
        ]
        for asked in wrong:
            status, _, body = self.post("/ask", asked)
            self.assertEqual((status, sorted(json.loads(body))), (400, ["kind", "refused"]), (asked, body))
        self.assertEqual([turns.chart._child.pid for turns in (self.charts.play, self.charts.hand)], pids)

    # Turns.

    def test_cancelled(self):
        """A request that waits is dropped once its page has gone, and is not asked."""
        began, go_on, asked = threading.Event(), threading.Event(), []

        def busy(chart):
            began.set()
            go_on.wait(20)

        thread = threading.Thread(target=lambda: self.charts.hand.ask(busy))
        thread.start()
        began.wait(20)
        with mock.patch("gract.explorer.explorer.answered", lambda chart, question: asked.append(question)):
            with socket.create_connection((guard.HOST, self.guard.port), 30) as connection:
                connection.sendall(self.head("POST", "/ask", Content_Length=2) + b"\r\n\r\n{}")
                time.sleep(0.2)
            time.sleep(0.3)
            go_on.set()
            thread.join()
            time.sleep(0.2)
        self.assertEqual(asked, [])
        self.assertEqual(self.post("/ask", {"kind": "path", "object": 278})[0], 200)

    def test_too_long(self):
        """A question that takes too long ends its child; the page is told, and the next is answered."""
        self.charts.hand.watch.seconds = 0.3
        before = self.charts.hand.chart._child.pid
        os.kill(before, signal.SIGSTOP)
        status, _, body = self.post("/ask", {"kind": "path", "object": 278})
        self.assertEqual((status, json.loads(body)["kind"]), (504, "TooLong"))
        self.charts.hand.watch.seconds = 20
        self.assertEqual(self.post("/ask", {"kind": "path", "object": 278})[0], 200)
        self.assertNotEqual(self.charts.hand.chart._child.pid, before)

    def test_killed(self):
        """A child that is killed is begun anew, and the question is answered."""
        for turns in (self.charts.play, self.charts.hand):
            os.kill(turns.chart._child.pid, signal.SIGKILL)
        self.assertEqual(self.blocks(self.asked("/slices", {"instants": [AT]})), [(AT, self.plain.slice(AT, lambda x, y: True))])
        self.assertEqual(len(json.loads(self.asked("/ask", {"kind": "path", "object": 278}))["rows"]), len(self.plain.path(278, 0, 99999)))

    def test_replaced(self):
        """An index that is replaced is told with each answer; a child that is begun anew refuses it until it is opened anew."""
        self.addCleanup(gract.build, self.rows, self.index, period=1461, grid=grid_of_storms())
        rows = [(number, at, x + 7, y) for number, at, x, y in self.rows]
        gract.build(rows, self.index, period=1461, grid=grid_of_storms())
        status, headers, body = self.post("/slices", {"instants": [AT]})
        self.assertEqual((status, headers["X-Gract-Replaced"]), (200, "1"))
        self.assertEqual(self.blocks(body), [(AT, self.plain.slice(AT, lambda x, y: True))])
        os.kill(self.charts.hand.chart._child.pid, signal.SIGKILL)
        status, _, body = self.post("/ask", {"kind": "path", "object": 278})
        self.assertEqual((status, json.loads(body)["kind"]), (409, "ChangedError"))
        self.assertEqual(json.loads(self.asked("/renew", {})), {"version": 2})
        status, headers, body = self.post("/slices", {"instants": [AT]})
        self.assertEqual((headers["X-Gract-Replaced"], headers["X-Gract-Version"]), ("0", "2"))
        self.assertEqual(self.blocks(body), [(AT, plain.Plain(plain.gridded(rows, 1, 6)).slice(AT, lambda x, y: True))])


class Beside(unittest.TestCase):
    """What is tried without a server."""

    def test_wide(self):
        """Cells beyond 2^31 travel as float64, exactly."""
        reply = [b"7 %d -5" % 2**40, b"9 3 4"], b"ok 2"
        block = binary.slice_block(-2**41, reply)
        self.assertEqual(binary.HEAD.unpack_from(block), (-2.0**41, 2, 8))
        self.assertEqual(array("d", block[24:56]).tolist(), [2.0**40, 3, -5, 4])
        self.assertEqual(binary.slice_block(1, ([], b"ok 0")), binary.HEAD.pack(1, 0, 4))
        for said in (b"bad word", b"ok 3"):
            self.assertRaises(binary.NotAnswered, binary.slice_block, 1, ([b"7 1 1"], said))

    def test_state(self):
        """A link that was copied, its part behind `#`, without the secret; anything else is refused."""
        self.assertEqual(command.state_of("http://127.0.0.1:80/#secret=ab&at=1&view=2"), "at=1&view=2")
        self.assertEqual(command.state_of(" at=2005-08-29T06%3A00 "), "at=2005-08-29T06%3A00")
        self.assertEqual(command.state_of(""), "")
        for text in ('at="><script>', "at=1 view=2", "x" * 9000, "at=\u00e9", "at=1\n2"):
            self.assertRaises(gract.ArgumentError, command.state_of, text)

    def test_coast(self):
        """Coasts of GeoJSON, those that are none, and the shapefile of Debian where it is there."""
        grid = grid_of_storms()
        with tempfile.TemporaryDirectory() as folder:
            file = Path(folder) / "coast.json"
            file.write_text(json.dumps({"type": "Polygon", "coordinates": [[[-90, 30], [-80, 30], [-80, 35], [-90, 30]]]}))
            found = shores.coast_of(grid, str(file))
            self.assertEqual(found.said, "coast: coast.json")
            kind, count = binary.OBJECT.unpack_from(found.data)
            self.assertEqual(kind, shores.KINDS["land"])
            self.assertIn((-900.0, 300.0), set(zip(*[iter(array("f", found.data[8:8 + 4 * count]).tolist())] * 2)))
            for text in ("", "{", "[1]", '{"type": "Polygon", "coordinates": 5}', '{"type": "Polygon", "coordinates": [[["x", 1]]]}'):
                file.write_text(text)
                self.assertRaises(shores.CoastError, shores.coast_of, grid, str(file))
            self.assertRaises(shores.CoastError, shores.coast_of, grid, f"{folder}/none")
        self.assertRaises(shores.CoastError, shores.coast_of, None, "coast.json")
        self.assertIn("no degrees", shores.coast_of(None, None).said)
        if Path(shores.COARSE).exists():
            self.assertIn("coarse", shores.coast_of(grid, None).said)
            self.assertGreater(len(shores.coast_of(grid, None).data), 50000)

    def test_tail(self):
        """Rows of a tail are asked too, and a tail that is written anew is told."""
        with tempfile.TemporaryDirectory() as folder:
            index, tail = f"{folder}/few.idx", Path(folder) / "tail.csv"
            gract.build([(1, 0, 5, 5), (1, 1, 6, 5)], index, period=10)
            tail.write_text("2,1,7,7\n1,2,8,8\n")
            with charts.Charts(charts.Source(index, str(tail))) as both:
                found = both.play.ask(lambda chart: list(chart.slice(1)))
                self.assertEqual([tuple(row) for row in found], [(1, 6, 5), (2, 7, 7)])
                self.assertFalse(both.is_replaced())
                tail.write_text("2,1,7,7\n1,2,8,8\n3,1,9,9\n")
                self.assertTrue(both.is_replaced())
                both.renew()
                self.assertEqual(len(both.play.ask(lambda chart: list(chart.slice(1)))), 3)
            for text, kind in ((None, gract.LoadError), ("1,2,3\n", gract.RowError)):
                tail.unlink() if text is None else tail.write_text(text)
                with self.assertRaises(kind) as refusal:
                    gract.open(index, tail=tail)
                self.assertEqual(refusal.exception.file, str(tail))
            self.assertRaises(gract.LoadError, gract.open, f"{folder}/none.idx", tail=tail)
            with self.assertRaises(gract.ArgumentError):
                days.build([(1, 0, 5, 5), (1, 9, 6, 5)], f"{folder}/archive", length=5)
                command.explore(f"{folder}/archive", tail=str(tail), show=lambda file: True)

    def test_archive(self):
        """An archive of days is explored with at most eight children."""
        rows = [(number, at, at + number, number) for number in range(5) for at in range(200)]
        with tempfile.TemporaryDirectory() as folder:
            days.build(rows, f"{folder}/archive", length=10, period=10)
            with charts.Charts(charts.Source(f"{folder}/archive")) as both:
                self.assertTrue(both.source.is_archive())
                for at in range(0, 200, 7):
                    for turns in (both.play, both.hand):
                        found = turns.ask(lambda chart, at=at: [tuple(row) for row in chart.slice(at)])
                        self.assertEqual(found, [(number, at + number, number) for number in range(5)])
                children = [child for turns in (both.play, both.hand) for child in charts.children_of(turns.chart)]
                self.assertLessEqual(len(children), charts.MOST_CHILDREN)
                both.hand.watch.seconds = 0.3
                for pid in charts.children_of(both.hand.chart):
                    os.kill(pid, signal.SIGSTOP)
                last = 196
                self.assertRaises(charts.TooLong, both.hand.ask, lambda chart: chart.slice(last))
                both.hand.watch.seconds = 20
                self.assertEqual(len(both.hand.ask(lambda chart: chart.slice(last))), 5)
