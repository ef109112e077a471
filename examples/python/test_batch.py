#!/usr/bin/python3
"""Tests of batch.py: what it reads, what it skips, and what becomes of pages whose workers die.

    test_batch.py      PYTHONPATH leads to html_render
"""

import gzip
import json
import mailbox
import os
import signal
import subprocess
import sys
import tempfile
import time
import unittest
from email.message import EmailMessage
from pathlib import Path

BATCH = Path(__file__).resolve().parent / "batch.py"

# a module in the place of html_render: the same, but a page that says so kills its process, or waits where it is rendered first
FATAL = '''
import importlib, os, signal, sys, time

this = sys.modules.pop(__name__)
folder = os.path.dirname(__file__)
sys.path.remove(folder)
real = importlib.import_module(__name__)
sys.modules[__name__] = this
sys.path.insert(0, folder)


def render(page, *words, **options):
    if b"kill" in page:
        os.kill(os.getpid(), signal.SIGKILL)
    if b"wait" in page:
        try:
            os.symlink(str(os.getpid()), os.path.join(folder, "waiting"))
        except FileExistsError:
            pass
        else:
            time.sleep(1000)
    return real.render(page, *words, **options)


Options = real.Options
'''


def record(kind, content, more=b""):
    """Returns a WARC record, with more headers."""
    return b"WARC/1.0\r\nWARC-Type: %s\r\n%sContent-Length: %d\r\n\r\n%s\r\n\r\n" % (kind, more, len(content), content)


def response(headers, body, address=None):
    """Returns a WARC record of a response of HTTP."""
    more = b"" if address is None else b"WARC-Target-URI: %s\r\n" % address
    return record(b"response", b"HTTP/1.1 200 OK\r\n%s\r\n\r\n%s" % (headers, body), more)


def chunked(body):
    return b"%x\r\n%s\r\n0\r\n\r\n" % (len(body), body)


def mail(subject, text, html=None, charset="utf-8"):
    """Returns a mail of a text, and of HTML if it is given."""
    made = EmailMessage()
    made["Subject"] = subject
    made.set_content(text)
    if html is not None:
        made.add_alternative(html, subtype="html", charset=charset)
    return made


class Batch(unittest.TestCase):
    def setUp(self):
        folder = tempfile.TemporaryDirectory()
        self.addCleanup(folder.cleanup)
        self.folder = Path(folder.name)
        self.output = self.folder / "texts.jsonl"

    def write(self, name, content):
        path = self.folder / name
        path.parent.mkdir(parents=True, exist_ok=True)
        path.write_bytes(content)

    def start(self, *words, module=None):
        """Starts batch.py in the folder, with a module of its own in the place of html_render."""
        environment = dict(os.environ)
        if module is not None:
            self.write("module/html_render.py", module.encode())
            environment["PYTHONPATH"] = os.pathsep.join([str(self.folder / "module"), environment.get("PYTHONPATH", "")])
        command = [sys.executable, BATCH, "--workers", "2", "texts.jsonl", *words]
        return subprocess.Popen(command, cwd=self.folder, env=environment, stdout=subprocess.PIPE, stderr=subprocess.PIPE, text=True)

    def run_batch(self, *words, module=None):
        """Runs batch.py. Returns its status and the last line of what it prints."""
        process = self.start(*words, module=module)
        printed, faults = process.communicate(timeout=300)
        self.assertEqual(printed, "", faults)
        return process.returncode, faults.strip().rpartition("\n")[2]

    def records(self):
        """Returns the texts and faults of pages by their names. No page has two lines."""
        lines = [json.loads(line) for line in self.output.read_text().splitlines()]
        found = {line["page"]: line.get("text", line.get("fault")) for line in lines}
        self.assertEqual(len(found), len(lines))
        return found

    def test_folders(self):
        self.write("site/b/2.HTM", b"<p>two<hr>")
        self.write("site/1.html", "<p>\u00e9".encode("latin1"))
        self.write("site/picture.png", b"")
        self.write("other/3.html", b"<b>3</b>")
        self.assertEqual(self.run_batch("--width", "5", "site", "other"), (0, "3 pages, of which 0 have no text; 0 were there"))
        expected = {"site/1.html": "\u00e9\n", "site/b/2.HTM": "two\n\n\u2500\u2500\u2500\u2500\u2500\n", "other/3.html": "**3**\n"}
        self.assertEqual(self.records(), expected)

    def test_warc(self):
        html = b"Content-Type: text/html"
        page = b"<p>\xcd\xc9\xd2"
        parts = [
            record(b"warcinfo", b"software: test"),
            response(html, b"<p>plain"),
            response(b"Content-Type: image/png", b"\x89PNG"),
            response(html + b"; charset=koi8-r", page),
            response(html + b"; charset=koi8-r\r\nTransfer-Encoding: chunked", chunked(page)),
            response(html + b"\r\nTransfer-Encoding: chunked", b"<p>joined"),
            response(html + b"\r\nContent-Encoding: gzip", gzip.compress(b"<p>packed")),
            response(html + b"; charset=klingon\r\nContent-Length: 99", b"<p>cut"),
            record(b"request", b"GET / HTTP/1.1\r\n\r\n"),
        ]
        texts = {1: "plain\n", 3: "\u043c\u0438\u0440\n", 4: "\u043c\u0438\u0440\n", 5: "joined\n", 6: "packed\n", 7: "cut\n"}
        self.write("a.warc", b"".join(parts))
        self.write("b.warc.gz", b"".join(map(gzip.compress, parts)))
        self.assertEqual(self.run_batch("a.warc", "b.warc.gz"), (0, "12 pages, of which 0 have no text; 0 were there"))
        self.assertEqual(self.records(), {f"{name}#{number}": text for name in ("a.warc", "b.warc.gz") for number, text in texts.items()})

    def test_links_of_warc_are_resolved(self):
        link = b"<a href=b>a</a>"
        addresses = [b"https://ferries.example/c/d", b"<https://ferries.example/>", b"no address", None]
        self.write("a.warc", b"".join(response(b"Content-Type: text/html", link, address) for address in addresses))
        self.assertEqual(self.run_batch("a.warc"), (0, "4 pages, of which 0 have no text; 0 were there"))
        targets = ["https://ferries.example/c/b", "https://ferries.example/b", "b", "b"]
        self.assertEqual(self.records(), {f"a.warc#{number}": f"a[1]\n\n[1]: {target}\n" for number, target in enumerate(targets)})

    def test_mails(self):
        mails = [mail("a", "one", "<p>One"), mail("b", "two"), mail("c", "three", "<p>caf\u00e9", "latin1")]
        for box in (mailbox.mbox(self.folder / "list"), mailbox.Maildir(self.folder / "home")):
            for each in mails:
                box.add(each)
            box.close()
        self.assertEqual(self.run_batch("list", "home"), (0, "4 pages, of which 0 have no text; 0 were there"))
        found = self.records()
        self.assertEqual([found["list#0"], found["list#2"]], ["One\n", "caf\u00e9\n"])
        self.assertEqual(sorted(text for name, text in found.items() if name.startswith("home#")), ["One\n", "caf\u00e9\n"])

    def test_what_is_done_is_skipped(self):
        for number in range(120):
            self.write(f"site/{number:03}.html", b"<p>%d" % number)
        self.assertEqual(self.run_batch("site"), (0, "120 pages, of which 0 have no text; 0 were there"))
        whole = self.output.read_text()
        self.assertEqual(self.run_batch("site"), (0, "0 pages, of which 0 have no text; 120 were there"))
        self.assertEqual(self.output.read_text(), whole)
        # a run that is stopped while it writes leaves a part of a line
        self.output.write_text(whole[: len(whole) // 2])
        status, told = self.run_batch("site")
        self.assertEqual(status, 0)
        self.assertRegex(told, "^(59|60|61) pages, of which 0 have no text; (59|60|61) were there$")
        self.assertEqual(self.records(), {f"site/{number:03}.html": f"{number}\n" for number in range(120)})

    def test_faults_have_reasons(self):
        self.write("site/1.html", b"<p>one")
        self.write("site/2.html", b"<p>two")
        status, told = self.run_batch("--width", "-1", "site")
        self.assertEqual((status, told), (1, "2 pages, of which 2 have no text; 0 were there"))
        for fault in self.records().values():
            self.assertRegex(fault, r"^\w+: .")

    def test_a_page_that_kills_its_worker_is_lost_alone(self):
        for number in range(70):
            self.write(f"site/{number:02}.html", b"<p>kill" if number == 30 else b"<p>%d" % number)
        self.assertEqual(self.run_batch("site", module=FATAL), (1, "70 pages, of which 1 have no text; 0 were there"))
        expected = {f"site/{number:02}.html": f"{number}\n" for number in range(70)}
        expected["site/30.html"] = f"ChildProcessError: the process died of signal {int(signal.SIGKILL)}"
        self.assertEqual(self.records(), expected)

    def test_a_worker_that_is_killed_loses_nothing(self):
        for number in range(60):
            self.write(f"site/{number:02}.html", b"<p>wait" if number == 20 else b"<p>%d" % number)
        process = self.start("site", module=FATAL)
        waiting = self.folder / "module" / "waiting"
        for _ in range(600):
            if waiting.is_symlink():
                break
            time.sleep(0.1)
        os.kill(int(os.readlink(waiting)), signal.SIGKILL)
        _, faults = process.communicate(timeout=300)
        self.assertEqual(process.returncode, 0, faults)
        self.assertEqual(self.records(), {f"site/{number:02}.html": "wait\n" if number == 20 else f"{number}\n" for number in range(60)})


if __name__ == "__main__":
    unittest.main()
