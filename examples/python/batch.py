#!/usr/bin/python3
"""Renders many pages of HTML to JSON lines, on one machine or on several, by Dask (Debian's python3-distributed).

    batch.py texts.jsonl site/ crawl.warc.gz list.mbox

An input is a folder with files of HTML, a Maildir, a file of WARC records (.warc, .warc.gz), or else an mbox file. Each page becomes a
line of the output: {"page": NAME, "text": TEXT}, or {"page": NAME, "fault": REASON} where it can't be rendered. Lines are appended as
they are ready, and pages that the output has are skipped. So a run that was stopped goes on when it is started again.
Links of a page in a WARC file are resolved against the address in its record.

Pages are read here, and rendered in parts by workers: processes of this machine, or those of the scheduler that --scheduler names, on
which html_render is installed. If a worker dies, the pages of its part are rendered again, each in a process of its own, so that only
the page is lost for which that process dies too.
"""

import argparse
import gzip
import http.client
import io
import json
import logging
import mailbox
import os
import subprocess
import sys
import warnings
import zlib
from collections.abc import Callable, Iterable, Iterator
from concurrent.futures import CancelledError
from dataclasses import dataclass, replace
from email.message import Message
from itertools import chain, islice
from pathlib import Path
from typing import BinaryIO

import dask
from distributed import Client, KilledWorker, LocalCluster, as_completed

ENDINGS = (".html", ".htm", ".xhtml")
TYPES = ("text/html", "application/xhtml+xml")

# a part has at most so many pages, and ends with the page that reaches so many bytes
PART_PAGES = 50
PART_BYTES = 1 << 19

# parts that a worker is given at once: one is sent while another is rendered
PARTS_AHEAD = 2

# seconds for a page in a process of its own
TIMEOUT = 60

# bytes of a WARC record that are read; a longer page is cut
MAX_RECORD = 1 << 26

CHILD = """
import sys
from html_render import Options, render

width, charset, base = int(sys.argv[1]), sys.argv[2] or None, sys.argv[3] or None
page = sys.stdin.buffer.read()
sys.stdout.buffer.write(render(page, width, charset=charset, options=Options(base=base)).encode())
"""


@dataclass(frozen=True)
class Page:
    """A page, its name among all pages, the encoding that HTTP or its mail names, and its address, against which links are resolved."""

    name: str
    html: bytes
    charset: str | None = None
    base: str | None = None


def pages_of_folder(folder: Path, done: set[str]) -> Iterator[Page]:
    """Yields the files of HTML below a folder, in the order of their names, but for those that are done."""
    for path, folders, files in os.walk(folder):
        folders.sort()
        for file in sorted(file for file in files if file.lower().endswith(ENDINGS)):
            name = os.path.join(path, file)
            if name not in done:
                yield Page(name, Path(name).read_bytes())


def pages_of_mails(path: Path, done: set[str]) -> Iterator[Page]:
    """Yields the parts of HTML of mails in a Maildir or an mbox file, the first of each mail, but for those that are done."""
    box = mailbox.Maildir(path, create=False) if path.is_dir() else mailbox.mbox(path, create=False)
    for key in sorted(box.keys(), key=str) if path.is_dir() else box.keys():
        name = f"{path}#{key}"
        part = None if name in done else html_part(box[key])
        if part is not None:
            yield Page(name, part.get_payload(decode=True) or b"", part.get_content_charset())


def html_part(mail: Message) -> Message | None:
    """Returns the first part of HTML in a mail that isn't an attachment, if there is one."""
    for part in mail.walk():
        if part.get_content_type() in TYPES and part.get_content_disposition() != "attachment":
            return part
    return None


def pages_of_warc(path: Path, done: set[str]) -> Iterator[Page]:
    """Yields the pages of HTML among the responses of a WARC file, but for those that are done. A name has the number of the record."""
    with gzip.open(path) if path.suffix == ".gz" else open(path, "rb") as file:
        for number, (headers, content) in enumerate(records(file)):
            name = f"{path}#{number}"
            if name not in done and headers.get("WARC-Type") == "response":
                found = html_of_response(content)
                if found is not None:
                    # some crawlers put the address in angle brackets
                    yield Page(name, *found, base=headers.get("WARC-Target-URI", "").strip("<> ") or None)


def records(file: BinaryIO) -> Iterator[tuple[Message, bytes]]:
    """Yields the headers and the content of each record of WARC (ISO 28500)."""
    while line := file.readline():
        if not line.strip():
            continue
        if not line.startswith(b"WARC/"):
            raise ValueError(f"no WARC record begins with {line[:20]!r}")
        headers = http.client.parse_headers(file)
        length = int(headers["Content-Length"])
        yield headers, file.read(min(length, MAX_RECORD))
        rest = max(length - MAX_RECORD, 0)
        while rest > 0 and (skipped := len(file.read(min(rest, 1 << 20)))):
            rest -= skipped


class _Connection:
    """What http.client reads a response from."""

    def __init__(self, content: bytes):
        self._content = content

    def makefile(self, *_):
        return io.BytesIO(self._content)


def html_of_response(content: bytes) -> tuple[bytes, str | None] | None:
    """Returns the HTML of a response of HTTP, and its encoding as the headers name it. None if it is something else."""
    response = http.client.HTTPResponse(_Connection(content))
    try:
        response.begin()
        if response.headers.get_content_type() not in TYPES:
            return None
        body = response.read()
    except http.client.IncompleteRead as fault:
        # some crawlers keep the header of a chunked body that they have joined
        body = fault.partial or content.partition(b"\r\n\r\n")[2]
    except (http.client.HTTPException, ValueError):
        return None
    return decoded(body, response.headers.get("Content-Encoding", "")), response.headers.get_content_charset()


def decoded(body: bytes, coding: str) -> bytes:
    """Returns the body of a response without its coding. One that isn't coded, though its headers say so, stays as it is."""
    windows = {"gzip": 31, "x-gzip": 31, "deflate": 15}.get(coding.strip().lower())
    try:
        return body if windows is None else zlib.decompressobj(windows).decompress(body)
    except zlib.error:
        return body


def pages_of(path: Path, done: set[str]) -> Iterator[Page]:
    """Yields the pages of an input that aren't done."""
    if path.is_dir() and not all((path / name).is_dir() for name in ("cur", "new")):
        return pages_of_folder(path, done)
    if path.name.endswith((".warc", ".warc.gz")):
        return pages_of_warc(path, done)
    return pages_of_mails(path, done)


def parts_of(pages: Iterable[Page]) -> Iterator[list[Page]]:
    """Yields the pages in parts for the workers."""
    part, size = [], 0
    for page in pages:
        part.append(page)
        size += len(page.html)
        if len(part) == PART_PAGES or size >= PART_BYTES:
            yield part
            part, size = [], 0
    if part:
        yield part


def rendered(page: Page, render: Callable[[Page], str]) -> dict[str, str]:
    """Returns the record of a page that a function renders."""
    try:
        return {"page": page.name, "text": render(page)}
    except (LookupError, ValueError) as fault:
        if page.charset is not None:
            # an encoding that isn't known counts as none
            return rendered(replace(page, charset=None), render)
        if page.base is not None:
            # and so does an address that isn't a URL
            return rendered(replace(page, base=None), render)
        return {"page": page.name, "fault": f"{type(fault).__name__}: {fault}"}
    except Exception as fault:
        return {"page": page.name, "fault": f"{type(fault).__name__}: {fault}"}


def render_part(part: list[Page], width: int) -> list[dict[str, str]]:
    """Renders pages in this process."""
    from html_render import Options, render

    return [rendered(page, lambda it: render(it.html, width, charset=it.charset, options=Options(base=it.base))) for page in part]


def render_apart(part: list[Page], width: int) -> list[dict[str, str]]:
    """Renders pages, each in a process of its own."""
    environment = {**os.environ, "PYTHONPATH": os.pathsep.join(filter(None, sys.path))}

    def run(page: Page) -> str:
        command = [sys.executable, "-c", CHILD, str(width), page.charset or "", page.base or ""]
        child = subprocess.run(command, input=page.html, env=environment, stdout=subprocess.PIPE, stderr=subprocess.PIPE, timeout=TIMEOUT)
        if child.returncode < 0:
            raise ChildProcessError(f"the process died of signal {-child.returncode}")
        if child.returncode:
            last_line = child.stderr.decode(errors="replace").strip().rpartition("\n")[2]
            raise ValueError(last_line)
        return child.stdout.decode()

    return [rendered(page, run) for page in part]


def lost(part: list[Page]) -> list[dict[str, str]]:
    """Returns the records of pages for which two workers died."""
    return [{"page": page.name, "fault": "its worker died"} for page in part]


def render_all(client: Client, pages: Iterable[Page], width: int) -> Iterator[list[dict[str, str]]]:
    """Yields the records of pages, by parts, as they are ready. Only some parts are read ahead."""
    parts = parts_of(pages)
    running = {}
    queue = as_completed()

    def start(part: list[Page], by: Callable) -> None:
        future = client.submit(by, part, width, pure=False)
        running[future] = (part, by)
        queue.add(future)

    for part in islice(parts, PARTS_AHEAD * max(sum(client.nthreads().values()), 1)):
        start(part, render_part)
    for future in queue:
        part, by = running.pop(future)
        try:
            yield future.result()
        except (KilledWorker, CancelledError):
            if by is render_part:
                start(part, render_apart)
                continue
            yield lost(part)
        following = next(parts, None)
        if following is not None:
            start(following, render_part)


def names_in(output: Path) -> set[str]:
    """Returns the names of the pages that an output has. Cuts a line off that was being written when a run was stopped."""
    names, end = set(), 0
    with open(output, "a+b") as file:
        file.seek(0)
        for line in file:
            if not line.endswith(b"\n"):
                break
            names.add(json.loads(line)["page"])
            end += len(line)
        file.truncate(end)
    return names


def write_all(client: Client, words: argparse.Namespace) -> int:
    """Appends the records of all pages that the output doesn't have. Prints how many there are. Returns the number of faults."""
    done = names_in(words.output)
    count = faults = 0
    pages = chain.from_iterable(pages_of(path, done) for path in words.input)
    with open(words.output, "a", encoding="utf-8") as output:
        for part in render_all(client, pages, words.width):
            count += len(part)
            faults += sum("fault" in record for record in part)
            output.writelines(json.dumps(record, ensure_ascii=False) + "\n" for record in part)
            output.flush()
    print(f"{count} pages, of which {faults} have no text; {len(done)} were there", file=sys.stderr)
    return faults


def read_words(words: list[str] | None) -> argparse.Namespace:
    """Reads the words of the command line."""
    parser = argparse.ArgumentParser(description="Renders pages of HTML to JSON lines, by Dask.")
    parser.add_argument("output", type=Path, help="file of JSON lines to which records are appended")
    parser.add_argument("input", type=Path, nargs="+", help="folder of HTML, Maildir, .warc, .warc.gz or mbox file")
    parser.add_argument("--width", type=int, default=80, help="columns of a line (default 80)")
    parser.add_argument("--workers", type=int, default=os.cpu_count(), help="processes of this machine (default: its processors)")
    parser.add_argument("--scheduler", metavar="ADDRESS", help="address of a Dask scheduler, whose workers are used instead")
    found = parser.parse_args(words)
    for path in found.input:
        if not path.exists():
            parser.error(f"there is no {path}")
    return found


def main(words: list[str] | None = None) -> int:
    """Runs the program. Returns 1 if a page has no text, else 0."""
    found = read_words(words)
    # a page may be large, and the scheduler passes it on
    warnings.filterwarnings("ignore", message="Large object of size")
    # a part whose worker dies isn't given to others as it is
    dask.config.set({"distributed.scheduler.allowed-failures": 0})
    if found.scheduler:
        with Client(found.scheduler) as client:
            return min(write_all(client, found), 1)
    with LocalCluster(found.workers, threads_per_worker=1, dashboard_address=None, silence_logs=logging.CRITICAL) as cluster:
        with Client(cluster) as client:
            return min(write_all(client, found), 1)


if __name__ == "__main__":
    sys.exit(main())
