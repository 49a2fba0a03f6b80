"""The desk's server: what it answers, and whom it does not."""

import http.client
import json
import re
import shutil
import socket
import subprocess
import threading
import unittest
from pathlib import Path

from command import TOWN, TOWN_FOLDER, from_shell, postman
from pages import Page
from test_streets_list import Folder

from postman import plan_call, streets
from postman.desk import Desk, DeskServer
from postman.desk.saving import free_name, save
from postman.desk.server import ACTIONS, MOST_BYTES, MOST_JUDGED
from postman.streets.windows_file import read_windows


class Served(Folder):
    """A desk that is served, on a copy of the town."""

    def setUp(self):
        super().setUp()
        for name in ("streets.csv", "corners.csv"):
            shutil.copy(TOWN_FOLDER / name, self.folder / name)
        self.path = self.folder / "streets.csv"
        self.town = streets.open_list(str(self.path))
        windows = read_windows(str(TOWN_FOLDER / "windows.csv"), self.town)
        self.desk = Desk(self.town, windows, budget=1000)
        self.server = DeskServer(self.desk)
        thread = threading.Thread(target=self.server.serve_forever, kwargs={"poll_interval": 0.01})
        thread.start()
        self.addCleanup(thread.join)
        self.addCleanup(self.server.server_close)
        self.addCleanup(self.server.shutdown)
        self.host = f"127.0.0.1:{self.server.server_port}"
        self.origin = f"http://{self.host}"

    def ask(self, method, path, body=None, headers=(), host=None):
        """A request as given, and the status, the headers and the body of its answer."""
        connection = http.client.HTTPConnection("127.0.0.1", self.server.server_port, timeout=10)
        self.addCleanup(connection.close)
        connection.putrequest(method, path, skip_host=True)
        if host != "":
            connection.putheader("Host", host or self.host)
        for name, value in dict(headers).items():
            connection.putheader(name, value)
        connection.endheaders(body)
        answer = connection.getresponse()
        return answer.status, answer.headers, answer.read()

    def get(self, name, **options):
        return self.ask("GET", f"/{self.server.token}/{name}", **options)

    def post(self, name, value=None, data=None, **headers):
        """A change as the page sends it. A header of None is left out."""
        data = json.dumps(value if value is not None else {}).encode() if data is None else data
        fields = {"Origin": self.origin, "Content-Type": "application/json", "Content-Length": str(len(data))}
        fields.update({name.replace("_", "-"): given for name, given in headers.items()})
        sent = {name: given for name, given in fields.items() if given is not None}
        status, _, body = self.ask("POST", f"/{self.server.token}/{name}", data, sent)
        return status, json.loads(body)

    def untouched(self):
        """Nothing on the desk has moved."""
        self.assertEqual(self.desk.serial, 0)
        self.assertEqual(self.desk.plan.file, self.town.file)


class Admission(Served):
    def test_the_loopback_interface_alone(self):
        self.assertEqual(self.server.server_address[0], "127.0.0.1")
        self.assertTrue(self.server.address.startswith("http://127.0.0.1:"))

    def test_the_token_is_long_random_and_asked_for(self):
        other = DeskServer(self.desk)
        self.addCleanup(other.server_close)
        self.assertNotEqual(other.token, self.server.token)
        self.assertGreaterEqual(len(self.server.token), 32)
        token = self.server.token
        near = (f"/{token[:-1]}/state", f"/{token}x/state", f"/{token}", f"/{token.swapcase()}/")
        for path in ("/", "/state", "//state", *near):
            status, _, body = self.ask("GET", path)
            self.assertEqual(status, 404, path)
            self.assertNotIn(token.encode(), body)
        self.assertEqual(self.get("state")[0], 200)
        sent = {"Origin": self.origin, "Content-Type": "application/json", "Content-Length": "11"}
        self.assertEqual(self.ask("POST", "/wrong/mark", b'{"mark": 0}', sent)[0], 404)
        self.untouched()

    def test_the_host_is_this_server(self):
        port = self.server.server_port
        near = ("127.0.0.1", f"127.0.0.1:{port + 1}", f"127.0.0.1:{port}.evil")
        for host in ("evil.example", f"evil.example:{port}", *near):
            self.assertEqual(self.get("state", host=host)[0], 421, host)
        self.assertEqual(self.get("state", host="")[0], 421)
        self.assertEqual(self.get("state", host=f"localhost:{port}")[0], 200)
        status, _ = self.post("mark", {"mark": 0}, Host="evil.example")
        self.assertEqual(status, 421, "a second Host is one too many")
        self.untouched()

    def test_the_origin_is_this_page(self):
        near = (f"https://{self.host}", "http://127.0.0.1", f"http://localhost:{self.server.server_port}")
        for origin in ("http://evil.example", "null", *near):
            self.assertEqual(self.post("mark", {"mark": 0}, Origin=origin)[0], 403, origin)
            self.assertEqual(self.get("state", headers={"Origin": origin})[0], 403, origin)
        self.assertEqual(self.post("mark", {"mark": 0}, Origin=None)[0], 403)
        self.untouched()
        self.assertEqual(self.post("mark", {"mark": 0})[0], 200)

    def test_only_json_and_only_objects(self):
        for kind in (None, "text/plain", "application/x-www-form-urlencoded", "multipart/form-data"):
            self.assertEqual(self.post("mark", {"mark": 0}, Content_Type=kind)[0], 415, kind)
        for data in (b"", b"{", b"[0]", b"7", b"\xff\xfe", b"[" * 4000):
            self.assertEqual(self.post("mark", data=data)[0], 400, data[:9])
        self.untouched()

    def test_sizes_are_limited(self):
        self.assertEqual(self.post("mark", {"mark": 0, "text": " " * MOST_BYTES})[0], 413)
        for name, most in (("mark", MOST_BYTES), ("judge", MOST_JUDGED)):
            # It is refused by what it says of its length, before anything is read.
            self.assertEqual(self.post(name, data=b"{}", Content_Length=str(most + 1))[0], 413, name)
            self.assertEqual(self.post(name, data=b"{}", Content_Length="9" * 40)[0], 413, name)
        for length in (None, "-1", "two", "+2", "0x2", ""):
            self.assertEqual(self.post("mark", data=b"{}", Content_Length=length)[0], 411, length)
        self.assertEqual(self.post("mark", data=b"0\r\n\r\n", Transfer_Encoding="chunked")[0], 411)
        self.untouched()

    def test_a_long_list_can_be_judged(self):
        status, answer = self.post("judge", {"text": "\n".join(["255"] * 65535)})
        self.assertEqual(status, 200)
        self.assertIn("refusal 14", answer["said"])

    def test_fields_are_what_they_have_to_be(self):
        for name, value in (
            ("mark", {}),
            ("mark", {"mark": "0"}),
            ("mark", {"mark": 0.0}),
            ("mark", {"mark": True}),
            ("change", {"arc": None, "standing": "closed"}),
            ("change", {"arc": 0, "standing": 2}),
            ("change", {"arc": 0, "cost": "9"}),
            ("change", {"arc": 0, "standing": "closed", "back": 1}),
            ("judge", {"text": 7}),
            ("judge", {"text": "0\n\ud800"}),
            ("save", {"name": "\udfff.csv"}),
            ("save", {"name": ["x.csv"]}),
            ("save", {"name": "x.csv", "over": "yes"}),
        ):
            self.assertEqual(self.post(name, value)[0], 400, (name, value))
        for name, value in (
            ("mark", {"mark": 4}),
            ("mark", {"mark": -1}),
            ("mark", {"mark": 2**70}),
            ("return", {"mark": 0}),
            ("change", {"arc": 999, "standing": "closed"}),
            ("change", {"arc": -1, "standing": "closed"}),
            ("change", {"arc": 0, "cost": 70000}),
            ("budget", {"budget": 0}),
            ("depart", {"weekday": 9, "minute": 0}),
            ("paint", {"car": 3, "arc": 0}),
        ):
            status, answer = self.post(name, value)
            self.assertEqual(status, 422, (name, value))
            self.assertGreater(len(answer["error"]), 10)
        self.untouched()

    def test_nothing_else_is_there(self):
        above = ("../../../../etc/passwd", "..%2f..%2fetc/passwd")
        for path in (*above, "desk.py", "streets.csv", "desk.css/", "STATE", "mark"):
            self.assertEqual(self.get(path)[0], 404, path)
        for name in ("state", "", "other", "../mark"):
            self.assertEqual(self.post(name)[0], 404, name)
        for method in ("PUT", "DELETE", "OPTIONS", "PATCH", "TRACE", "CONNECT"):
            self.assertIn(self.ask(method, f"/{self.server.token}/state")[0], (400, 501), method)
        self.untouched()

    def test_garbage_is_survived(self):
        for data in (b"\r\n\r\n", b"GET\r\n\r\n", b"\x00\xff\r\n\r\n", b"GET http://[ HTTP/1.1\r\nHost: x\r\n\r\n"):
            with socket.create_connection(("127.0.0.1", self.server.server_port), timeout=5) as raw:
                raw.sendall(data)
                raw.shutdown(socket.SHUT_WR)
                while raw.recv(4096):
                    pass
        self.assertEqual(self.get("state")[0], 200)

    def test_headers_that_keep_the_page_to_itself(self):
        for status, headers, _ in (self.get(""), self.get("state"), self.ask("GET", "/")):
            policy = headers["Content-Security-Policy"]
            self.assertTrue(policy.startswith("default-src 'none';"), status)
            self.assertNotIn("unsafe", policy)
            self.assertIn("frame-ancestors 'none'", policy)
            self.assertEqual(headers["X-Content-Type-Options"], "nosniff")
            self.assertEqual(headers["Referrer-Policy"], "no-referrer")
            self.assertEqual(headers["Cache-Control"], "no-store")
            self.assertIsNone(headers["Access-Control-Allow-Origin"])


class Page_(Served):
    def test_the_page_needs_nothing_from_outside(self):
        status, headers, body = self.get("")
        self.assertEqual((status, headers.get_content_type()), (200, "text/html"))
        page = Page(body.decode())
        names = page.names()
        self.assertEqual(len(names), len(set(names)))
        own = [reference for reference in page.references() if not reference.startswith("data:")]
        self.assertEqual(sorted(own), ["desk.css", "desk.js"])
        for name, kind in (("desk.css", "text/css"), ("desk.js", "text/javascript")):
            status, headers, text = self.get(name)
            self.assertEqual((status, headers.get_content_type()), (200, kind))
            self.assertNotRegex(text.decode(), r"https?://|@import|url\(")
        used = set(re.findall(r'\$\("([\w-]+)"\)', self.get("desk.js")[2].decode()))
        self.assertLessEqual(used, set(names))

    def test_no_style_or_script_in_the_page_that_its_policy_forbids(self):
        page = Page(self.get("")[2].decode())
        self.assertEqual(page.all("style"), [])
        self.assertTrue(all(text == "" and "src" in attributes for attributes, text in page.all("script")))
        names = {name for _, attributes, _ in page.elements for name in attributes}
        self.assertFalse([name for name in names if name.startswith("on") or name == "style"])

    def test_every_field_has_a_label(self):
        text = self.get("")[2].decode()
        inside = re.sub(r"<label.*?</label>", "", text, flags=re.DOTALL)
        for attributes in re.findall(r"<(?:input|select|textarea)([^>]*)>", inside):
            self.assertRegex(attributes, "aria-label", attributes)


class Doing(Served):
    def test_the_state_and_a_change(self):
        shown = json.loads(self.get("state")[2])
        first = plan_call(self.town.file, 1000)
        self.assertEqual((shown["result"]["cost"], shown["result"]["floor"]), (first.cost, first.floor))
        arc = next(arc for arc in first.drive if not self.town.streets[arc].must)
        status, changed = self.post("change", {"arc": arc, "standing": "closed"})
        self.assertEqual(status, 200)
        now = plan_call(self.desk.streets.file, 1000)
        self.assertEqual((changed["result"]["cost"], changed["result"]["floor"]), (now.cost, now.floor))
        self.assertEqual(changed["changed"]["cost"], now.cost - first.cost)
        again = json.loads(self.get("state")[2])
        self.assertEqual(again["result"], changed["result"], "the page keeps no state of its own")

    def test_marks_and_returning(self):
        self.post("mark", {"mark": 1})
        before = json.loads(self.get("state")[2])
        self.post("change", {"arc": 7, "cost": 9000, "back": True})
        status, back = self.post("return", {"mark": 1})
        self.assertEqual(status, 200)
        self.assertEqual(back["result"], before["result"])
        self.assertEqual(back["marks"], before["marks"])

    def test_pictures(self):
        for which in ("drive", "town", "cars"):
            status, headers, body = self.get(f"picture?view={which}")
            self.assertEqual((status, headers.get_content_type()), (200, "application/json"))
            self.assertTrue(json.loads(body)["svg"].startswith("<svg"))
        self.assertEqual(self.get("picture?view=../x")[0], 422)

    def test_the_other_actions(self):
        done = set()
        for name, value in (
            ("change", {"arc": 0, "standing": "closed"}),
            ("mark", {"mark": 3}),
            ("return", {"mark": 3}),
            ("depart", {"weekday": 6, "minute": 720}),
            ("depart", {}),
            ("budget", {"budget": 100}),
            ("share", {}),
            ("paint", {"car": 1, "arc": 1}),
            ("clear", {}),
            ("judge", {"text": "0"}),
            ("save", {"name": "saved-streets.csv"}),
        ):
            self.assertEqual(self.post(name, value)[0], 200, name)
            done.add(name)
        self.assertEqual(done, set(ACTIONS))

    def test_many_at_once(self):
        arcs = [arc for arc, street in enumerate(self.town.streets) if not street.must][:16]
        threads = [
            threading.Thread(target=self.post, args=("change", {"arc": arc, "cost": 1000 + arc})) for arc in arcs
        ]
        for thread in threads:
            thread.start()
        for thread in threads:
            thread.join()
        self.assertEqual([self.desk.streets.streets[arc].cost for arc in arcs], [1000 + arc for arc in arcs])
        self.assertEqual(self.desk.serial, len(arcs))


class Saving(Served):
    def listed(self):
        return sorted(path.name for path in self.folder.iterdir())

    def test_as_a_new_list(self):
        self.post("change", {"arc": 3, "standing": "closed"})
        status, answer = self.post("save", {"name": "new-streets.csv"})
        self.assertEqual((status, answer["said"]), (200, "new-streets.csv and new-corners.csv written."))
        saved = streets.open_list(str(self.folder / "new-streets.csv"))
        self.assertEqual(saved.file, self.desk.plan.file)
        self.assertEqual(saved.corners, self.town.corners)
        self.assertEqual([street.street for street in saved.streets], [street.street for street in self.town.streets])
        self.assertEqual(self.path.read_bytes(), Path(TOWN).read_bytes(), "the opened list is as it was")

    def test_never_over_a_file_without_asking(self):
        self.post("change", {"arc": 3, "standing": "closed"})
        before = self.path.read_bytes()
        for name in ("streets.csv", "corners.csv"):
            status, answer = self.post("save", {"name": name})
            self.assertEqual((status, answer["exists"]), (409, [name]))
        self.assertEqual(self.path.read_bytes(), before)
        status, _ = self.post("save", {"name": "streets.csv", "over": True})
        self.assertEqual(status, 200)
        self.assertEqual(streets.open_list(str(self.path)).file, self.desk.plan.file)

    def test_only_plain_names_in_the_list_s_folder(self):
        outside = self.folder.parent / "postman-outside.csv"
        before = self.listed()
        for name in (
            "../postman-outside.csv",
            "sub/x.csv",
            "sub\\x.csv",
            str(outside),
            "..",
            ".csv",
            ".hidden.csv",
            "x.txt",
            "x",
            "x.csv/",
            "x.csv\n",
            "x\0.csv",
            "con.csv",
            "~/x.csv",
            "a" * 200 + ".csv",
            "",
        ):
            self.assertEqual(self.post("save", {"name": name, "over": True})[0], 422, repr(name))
        self.assertEqual(self.listed(), before)
        self.assertFalse(outside.exists())

    def test_no_link_is_followed(self):
        aim = self.folder / "aim.txt"
        aim.write_text("as it was")
        (self.folder / "link.csv").symlink_to(aim)
        (self.folder / "folder.csv").mkdir()
        for name in ("link.csv", "folder.csv"):
            self.assertEqual(self.post("save", {"name": name, "over": True})[0], 422)
        self.assertEqual(aim.read_text(), "as it was")

    def test_the_name_that_is_offered_is_free(self):
        self.assertEqual(json.loads(self.get("state")[2])["save"], "streets-2.csv")
        self.post("save", {"name": "streets-2.csv"})
        self.assertEqual(json.loads(self.get("state")[2])["save"], "streets-3.csv")

    def test_what_is_saved_is_read_back_as_it_is(self):
        _, answer = self.post("save", {"name": "x.csv"})
        self.assertEqual(answer["said"], "x.csv and x-corners.csv written.")
        saved = streets.open_list(str(self.folder / "x.csv"))
        opened = streets.open_list(str(self.folder / "streets.csv"))
        self.assertEqual((saved.corners, saved.file), (opened.corners, opened.file))
        shutil.copy(TOWN_FOLDER / "map.geojson", self.folder / "map.geojson")
        mapped = streets.open_list(str(self.folder / "map.geojson"))
        name = free_name(mapped)
        self.assertEqual(name, "map-2.csv")
        saved = save(Desk(mapped, budget=10), name, False)
        self.assertEqual(saved, "map-2.csv and map-2-corners.csv written.")
        self.assertEqual(streets.open_list(str(self.folder / name)).corners, mapped.corners)

    def test_nothing_is_left_beside(self):
        self.post("save", {"name": "x.csv"})
        self.assertEqual(self.listed(), ["corners.csv", "streets.csv", "x-corners.csv", "x.csv"])


class Command(Folder):
    def test_it_prints_its_address_and_ends_by_an_interrupt(self):
        process = from_shell("desk", TOWN, "--budget", "100", stdout=subprocess.PIPE, stderr=subprocess.PIPE, text=True)
        self.addCleanup(process.kill)
        address = process.stdout.readline().strip()
        self.assertRegex(address, r"^http://127\.0\.0\.1:\d+/[\w-]{32}/$")
        _, _, host, token, _ = address.split("/")
        connection = http.client.HTTPConnection(host, timeout=10)
        connection.request("GET", f"/{token}/state")
        shown = json.loads(connection.getresponse().read())
        connection.close()
        self.assertEqual(shown["result"]["cost"], plan_call(streets.open_list(TOWN).file, 100).cost)
        process.send_signal(2)
        out, err = process.communicate(timeout=20)
        self.assertEqual((process.returncode, out), (0, ""))
        self.assertIn("Ctrl-C", err)

    def test_wrong_usage(self):
        self.assertEqual(postman("desk", "-").status, 2)
        self.assertEqual(postman("desk", TOWN, "--at", "tue 09:30").status, 2)
        self.assertEqual(postman("desk", TOWN, "--port", "70000").status, 2)
        self.assertEqual(postman("desk", TOWN, "--budget", "0").status, 1)
        with socket.socket() as taken:
            taken.bind(("127.0.0.1", 0))
            taken.listen()
            done = postman("desk", TOWN, "--port", str(taken.getsockname()[1]))
            self.assertEqual(done.status, 2)
            self.assertIn("cannot be had", done.err)


if __name__ == "__main__":
    unittest.main()
