"""The text of a mail.

    python3 -m html_render.mail [-w N] [FILE]        prints the text of a mail
    python3 -m html_render.mail --add [-w N] [FILE]  prints the mail with a text part, if it has none but HTML

The mail is FILE, or standard input. Its text is that of the parts that mail programs show: of a `multipart/alternative` the plain
one, if there is one; of a `multipart/related` the root; no attachments. HTML is rendered, also if its charset isn't known.

A part of HTML without a text beside it is put into a `multipart/alternative`, together with its pictures if it is the root of a
`multipart/related`. A signed or encrypted mail, and one that has a text, is printed as it is, byte for byte.
"""

from __future__ import annotations

import argparse
import sys
from copy import copy
from email import message_from_bytes, policy
from email.charset import QP, Charset
from email.message import Message
from email.mime.text import MIMEText
from pathlib import Path
from typing import Iterator

from . import BadCharset, Error, Options, render

# RFC 5322, section 2.1.1, advises at most 78 characters
WIDTH = 72
# RFC 5322, section 2.1.1, allows at most 998 bytes
_LONGEST = 998

# headers stay as they are
_POLICY = policy.compat32.clone(cte_type="8bit", max_line_length=None)
_SEALED = ("multipart/signed", "multipart/encrypted")
_CONTROLS = {it: None for it in (*range(0x20), *range(0x7F, 0xA0), *range(0x202A, 0x202F), *range(0x2066, 0x206A)) if chr(it) not in "\t\n"}


def parse(mail: bytes) -> Message:
    """Returns a mail, broken ones too. Raises RecursionError for some hundreds of multiparts in each other."""
    return message_from_bytes(mail, policy=_POLICY)


def text_of(mail: Message, width: int = WIDTH, options: Options = Options()) -> str:
    """Returns the text of a mail: of each part that is shown, with blank lines between parts."""
    texts = (_text(it, width, options).strip("\n") for it in _shown(mail))
    text = "\n\n".join(filter(None, texts))
    return text and text + "\n"


def add_text(mail: Message, width: int = WIDTH, options: Options = Options()) -> bool:
    """Adds a text part to a mail of HTML. Returns whether it did: not if a text is shown, no HTML is, or the mail is sealed."""
    shown = list(_shown(mail))
    if not shown or any(it.get_content_type() != "text/html" for it in shown):
        return False
    path = _path_to(shown[0], mail)
    if any(it.get_content_type() in _SEALED for it in path):
        return False
    text = _text_part(_text(shown[0], width, options))
    # the HTML with its pictures
    at = len(path) - 1
    if at > 0 and path[at - 1].get_content_type() == "multipart/related":
        at -= 1
    parent = path[at - 1] if at > 0 else None
    if parent is not None and parent.get_content_type() == "multipart/alternative":
        parent.get_payload().insert(0, text)
    else:
        _make_alternative(path[at], text)
    return True


def _is_attachment(part: Message) -> bool:
    return part.get_content_disposition() == "attachment"


def _shown(part: Message) -> Iterator[Message]:
    """Yields the parts of text that mail programs show of a part."""
    kind = part.get_content_type()
    if _is_attachment(part):
        return
    if not part.is_multipart():
        # a multipart without a boundary is a text
        if kind in ("text/plain", "text/html") or kind.startswith("multipart/"):
            yield part
    elif kind == "multipart/alternative":
        yield from _best([list(_shown(it)) for it in part.get_payload()])
    elif kind == "multipart/related":
        yield from _shown(_root(part))
    elif kind.startswith("multipart/"):
        for child in part.get_payload():
            yield from _shown(child)


def _best(alternatives: list[list[Message]]) -> list[Message]:
    """Returns the first of alternatives that has only plain text, or else the last that shows anything."""
    shown = [it for it in alternatives if it]
    plain = [it for it in shown if all(part.get_content_type() != "text/html" for part in it)]
    return (plain[:1] or shown[-1:] or [[]])[0]


def _root(related: Message) -> Message:
    """Returns the root of a `multipart/related` (RFC 2387, section 3.2): the part that `start` names, or the first one."""
    children, start = related.get_payload(), str(related.get_param("start", "")).strip(" <>")
    named = [it for it in children if start and str(it.get("content-id", "")).strip(" <>") == start]
    return (named or children)[0]


def _path_to(part: Message, mail: Message) -> list[Message]:
    """Returns the parts of a mail that have a part in them, the outermost first, and the part."""
    ahead = [[mail]]
    while ahead:
        path = ahead.pop()
        if path[-1] is part:
            return path
        if path[-1].is_multipart():
            ahead += [[*path, it] for it in path[-1].get_payload()]
    raise ValueError("the part isn't one of the mail")


def _bytes(part: Message) -> bytes:
    """Returns the bytes of a part without its transfer encoding, as far as that can be undone."""
    payload = part.get_payload(decode=True)
    return payload if isinstance(payload, bytes) else b""


def _text(part: Message, width: int, options: Options) -> str:
    """Returns the text of a part that is shown."""
    page, charset = _bytes(part), part.get_content_charset()
    if part.get_content_type() != "text/html":
        return _decoded(page, charset).replace("\r\n", "\n").translate(_CONTROLS)
    try:
        return render(page, width, charset=charset, options=options)
    except BadCharset:
        return render(page, width, options=options)


def _decoded(text: bytes, charset: str | None) -> str:
    """Returns a plain text. Without a charset that is known it is UTF-8 if all bytes are, and else windows-1252."""
    for name in (charset, "utf-8"):
        try:
            return text.decode(name or "utf-8")
        except (LookupError, ValueError):
            continue
    return text.decode("windows-1252", "replace")


def _text_part(text: str) -> Message:
    """Returns a part of plain text, which is as it is if mails can transport it."""
    if text.isascii() and all(len(it) <= _LONGEST for it in text.split("\n")):
        part = MIMEText(text, "plain", "us-ascii")
    else:
        charset = Charset("utf-8")
        charset.body_encoding = QP
        part = MIMEText(text, "plain", charset)
    del part["MIME-Version"]
    return part


def _make_alternative(part: Message, text: Message) -> None:
    """Makes a part a `multipart/alternative` of a text and of what it was."""
    # a copy has the payload as it was read, undecoded
    inner = copy(part)
    for name in set(part.keys()):
        del (part if name.lower().startswith("content-") else inner)[name]
    part.preamble = part.epilogue = None
    part["Content-Type"] = "multipart/alternative"
    part.set_payload([text, inner])


def _with_text(mail: bytes, width: int) -> bytes:
    """Returns a mail with a text part, with the ends of lines that it has."""
    message = parse(mail)
    if not add_text(message, width):
        return mail
    if "MIME-Version" not in message:
        message["MIME-Version"] = "1.0"
    ends = "\r\n" if mail.partition(b"\n")[0].endswith(b"\r") else "\n"
    return message.as_bytes(policy=_POLICY.clone(linesep=ends))


def main(words: list[str] | None = None) -> int:
    """Runs the program. Returns its status: 0 done, 1 not rendered; 2 is wrong usage, 3 not read."""
    parser = argparse.ArgumentParser(prog="python3 -m html_render.mail", description="Prints the text of a mail.")
    parser.add_argument("file", metavar="FILE", nargs="?", help="the mail; without it standard input")
    parser.add_argument("-w", "--width", metavar="N", type=int, default=WIDTH, help=f"columns of a line (default {WIDTH})")
    parser.add_argument("--add", action="store_true", help="print the mail with a text part, if it has none but HTML")
    choices = parser.parse_args(words)
    try:
        mail = sys.stdin.buffer.read() if choices.file is None else Path(choices.file).read_bytes()
        result = _with_text(mail, choices.width) if choices.add else text_of(parse(mail), choices.width).encode("utf-8")
    except OSError as error:
        print(f"mail: {error}", file=sys.stderr)
        return 3
    except RecursionError:
        print("mail: too many parts in each other", file=sys.stderr)
        return 1
    except (Error, ValueError) as error:
        print(f"mail: {error}", file=sys.stderr)
        return 1
    sys.stdout.buffer.write(result)
    return 0


if __name__ == "__main__":
    sys.exit(main())
