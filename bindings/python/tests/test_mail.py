"""Texts of mails, and text parts added to them."""

import os
import subprocess
import sys
from pathlib import Path

import pytest
from html_render import mail

MAILS = Path(__file__).resolve().parent / "mails"
HTML = b"Content-Type: text/html; charset=utf-8\n\n<p>one <em>two</em>\n"
PLAIN = b"Content-Type: text/plain\n\nthree\n"
PICTURE = b"Content-Type: image/png\nContent-ID: <a@b>\nContent-Transfer-Encoding: base64\n\niVBORw0KGgo=\n"
ATTACHED = b"Content-Type: text/html\nContent-Disposition: attachment; filename=a.html\n\n<p>four\n"


def multipart(kind, *parts, more=b""):
    """Returns a part of others."""
    boundary = b"=" + kind.encode() + b"="
    head = b'Content-Type: multipart/' + kind.encode() + b'; boundary="' + boundary + b'"' + more + b"\n\n"
    return head + b"".join(b"--" + boundary + b"\n" + it + b"\n" for it in parts) + b"--" + boundary + b"--\n"


def of(part):
    """Returns a mail of a part."""
    return b"From: a@b.example\nSubject: c\nMIME-Version: 1.0\n" + part


def text(part, width=20):
    return mail.text_of(mail.parse(of(part)), width)


def leaves(message):
    """Returns the kinds and contents of a mail's innermost parts."""
    return [(it.get_content_type(), it.get_payload(decode=True)) for it in message.walk() if not it.is_multipart()]


def shape(message):
    """Returns the kinds of a mail's parts, in brackets those in others."""
    kind = message.get_content_type().partition("/")[2]
    return kind + ("(" + " ".join(map(shape, message.get_payload())) + ")" if message.is_multipart() else "")


@pytest.mark.parametrize(
    "part, wanted",
    [
        (HTML, "one *two*\n"),
        (PLAIN, "three\n"),
        (multipart("alternative", PLAIN, HTML), "three\n"),
        (multipart("alternative", HTML), "one *two*\n"),
        (multipart("related", HTML, PICTURE), "one *two*\n"),
        (multipart("related", PICTURE, b"Content-ID: <r>\n" + HTML, more=b'; start="<r>"'), "one *two*\n"),
        (multipart("alternative", PLAIN, multipart("related", HTML, PICTURE)), "three\n"),
        (multipart("mixed", HTML, PLAIN, ATTACHED), "one *two*\n\nthree\n"),
        (multipart("mixed", ATTACHED), ""),
        (b"Content-Type: message/rfc822\n\n" + of(HTML), ""),
        (b"\nfive\n", "five\n"),
        (b"Content-Type: text/plain; charset=koi8-r\n\n\xcd\xc9\xd2\x1b[2J\n", "мир[2J\n"),
        (b"Content-Type: text/plain; charset=unknown\n\n\xe9\n", "é\n"),
        (b"Content-Type: text/html; charset=unknown\n\n<p>\xe9\n", "é\n"),
        (b"Content-Type: text/html; charset=iso-8859-1\nContent-Transfer-Encoding: quoted-printable\n\n<p>=E9t=E9\n", "été\n"),
        (b"Content-Type: text/html\nContent-Transfer-Encoding: base64\n\nPHA+YQ\n", "a\n"),
        (b"Content-Type: multipart/mixed\n\nsix\n", "six\n"),
    ],
)
def test_texts(part, wanted):
    assert text(part) == wanted


@pytest.mark.parametrize(
    "part, wanted",
    [
        (HTML, "alternative(plain html)"),
        (multipart("related", HTML, PICTURE), "alternative(plain related(html png))"),
        (multipart("mixed", HTML, ATTACHED), "mixed(alternative(plain html) html)"),
        (multipart("mixed", multipart("related", HTML, PICTURE), PICTURE), "mixed(alternative(plain related(html png)) png)"),
        (multipart("alternative", HTML), "alternative(plain html)"),
        (multipart("alternative", multipart("related", HTML, PICTURE)), "alternative(plain related(html png))"),
    ],
)
def test_added_texts(part, wanted):
    before, message = mail.parse(of(part)), mail.parse(of(part))
    assert mail.add_text(message, 20)
    after = mail.parse(message.as_bytes())
    assert shape(after) == wanted
    assert mail.text_of(after) == "one *two*\n"
    added = leaves(after)
    added.remove(("text/plain", b"one *two*\n"))
    assert [(kind, data.rstrip(b"\n")) for kind, data in added] == [(kind, data.rstrip(b"\n")) for kind, data in leaves(before)]
    assert after["Subject"] == "c" and not mail.add_text(after)


@pytest.mark.parametrize(
    "part",
    [
        PLAIN,
        multipart("alternative", PLAIN, HTML),
        multipart("mixed", HTML, PLAIN),
        multipart("mixed", ATTACHED),
        multipart("signed", HTML, PICTURE),
        b"Content-Type: multipart/mixed\n\nsix\n",
        b"\n",
    ],
)
def test_mails_that_stay_as_they_are(part):
    assert mail._with_text(of(part), 20) == of(part)


def test_a_text_that_mails_cannot_transport_is_encoded():
    message = mail.parse(of("Content-Type: text/html; charset=utf-8\n\n<p>é".encode()))
    assert mail.add_text(message)
    assert message.get_payload()[0]["Content-Transfer-Encoding"] == "quoted-printable"
    assert mail.text_of(mail.parse(message.as_bytes())) == "é\n"


def test_ends_of_lines_stay():
    crlf = of(HTML).replace(b"\n", b"\r\n")
    added = mail._with_text(crlf, 20)
    assert added.count(b"\r\n") == added.count(b"\n") > crlf.count(b"\n")
    assert b"\r" not in mail._with_text(of(HTML), 20)


def run(*words, given=b""):
    done = subprocess.run([sys.executable, "-m", "html_render.mail", *words], input=given, capture_output=True, check=False)
    return done.returncode, done.stdout, done.stderr


def test_the_program():
    name = MAILS / "ferries.eml"
    assert run("-w", "30", name)[1].startswith(b"# The new fares\n\nA crossing takes *twenty*\n")
    status, added, _ = run("--add", given=name.read_bytes())
    boundary = mail.parse(added).get_boundary().encode()
    assert (status, added.replace(boundary, b"BOUNDARY")) == (0, (MAILS / "ferries.expected").read_bytes())
    assert run("no/such/mail")[0] == 3
    assert run("-w", "0", given=of(HTML))[0] == 1
    assert run("--such")[0] == 2


CORPORA = [Path(it) for it in os.environ.get("HTML_RENDER_MAILS", "").split(":") if it]


@pytest.mark.skipif(not CORPORA, reason="HTML_RENDER_MAILS names no folders of mails")
def test_mails_of_folders():
    count = added = 0
    for name in sorted(it for folder in CORPORA for it in folder.rglob("*") if it.is_file()):
        data = name.read_bytes()
        message = mail.parse(data)
        shown, before = mail.text_of(message), leaves(message)
        assert not set(shown) & set(map(chr, mail._CONTROLS)), name
        result = mail._with_text(data, mail.WIDTH)
        count += 1
        if result != data:
            added += 1
            after = mail.parse(result)
            assert [data for kind, data in leaves(after) if kind != "text/plain"] == [data for _, data in before], name
            assert mail._with_text(result, mail.WIDTH) == result, name
    print(f"{count} mails, {added} with a text added")
    assert count > 0
