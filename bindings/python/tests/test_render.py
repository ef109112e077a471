"""Calls of html_render on pages."""

import dataclasses
import sys
import threading
import time
from pathlib import Path

import html_render
import pytest
from html_render import BadBase, BadCharset, BadStyleSheet, Error, Options, TooLarge, TooNarrow, render, render_lines

LINK = "<a href='/b'>a</a>"
IMAGE = "<img src='a/b.png' alt=''>"
TABLE = "<table border=1><tr><td>a<td>b</table>"


def test_str_and_bytes():
    assert render("<p>м") == "м\n"
    assert render("<meta charset=koi8-r><p>м") == "м\n"
    assert render("<p>м".encode("utf-8")) == "м\n"
    assert render("<p>м".encode("koi8-r"), charset="koi8-r") == "м\n"
    assert render(bytearray(b"<p>\xe9")) == render(memoryview(b"<p>\xe9")) == "é\n"
    assert render("") == render(b"") == ""
    assert render("a\ud800b") == "a\ufffdb\n"
    assert render("a\0b", options=Options(keep_controls=True)).startswith("a")


def test_width():
    assert render("<p>one two", 5) == "one\ntwo\n"
    assert render("<p>one two", 2**64 - 1) == "one two\n"
    for width in (-1, 2**64, 2**64 + 80, 2**200):
        with pytest.raises(ValueError):
            render("<p>a", width)
        with pytest.raises(ValueError):
            render_lines("<p>a", width)
    with pytest.raises(TypeError):
        render("<p>a", 8.0)
    with pytest.raises(TooNarrow):
        render("<p>a", 0)
    with pytest.raises(TooNarrow):
        render("世", 1, options=Options(narrow=True))
    assert render("世", 1) == "世\n"


@pytest.mark.parametrize(
    "page, options, text",
    [
        (LINK, Options(), "a[1]\n\n[1]: /b\n"),
        (LINK, Options(base="https://c.example"), "a[1]\n\n[1]: https://c.example/b\n"),
        (LINK, Options(links="inline"), "a </b>\n"),
        (LINK, Options(links="list"), "a\n\n/b\n"),
        (LINK, Options(links="none"), "a\n"),
        (LINK, Options(style="bare"), "a\n"),
        (LINK, Options(style="rich"), "a\n"),
        ("<a href=https://c.example>a</a>", Options(wrap_links=True), "a[1]\n\n[1]: https://c.ex\nample\n"),
        (IMAGE, Options(), ""),
        (IMAGE, Options(images="name"), "[b.png]\n"),
        (IMAGE, Options(image_title="c"), "[c]\n"),
        (TABLE, Options(), "─┬─\na│b\n─┴─\n"),
        (TABLE, Options(tables="none"), "a  b\n"),
        (TABLE, Options(raw_tables=True), "a\nb\n"),
        (TABLE, Options(no_borders=True), "a b\n"),
        (TABLE, Options(no_borders=True, fence_tables=True), "```\na b\n```\n"),
        ("<p>one two", Options(max_width=3), "one\ntwo\n"),
        ("<pre>one two three four</pre>", Options(wrap_code=True), "    one two three\n four\n"),
        ("<p>a", Options(pad=True), "a" + " " * 16 + "\n"),
        ("<title>a</title>b", Options(title=True), "a\n\nb\n"),
        ("<b>a</b>c", Options(css="b { display: none }"), "c\n"),
        ("<style>b { display: none }</style><b>a</b>c", Options(page_css=True), "c\n"),
        ("<a href='&#27;c'>b</a>", Options(), "b[1]\n\n[1]: c\n"),
        ("<a href='&#27;c'>b</a>", Options(keep_controls=True), "b[1]\n\n[1]: \x1bc\n"),
    ],
)
def test_options(page, options, text):
    assert render(page, 17, options=options) == text


def test_each_option_is_told():
    names = {it.name for it in dataclasses.fields(Options)}
    flags = set(html_render._numbers.FLAGS)
    assert flags < names
    assert names - flags == {"style", "links", "base", "tables", "max_width", "images", "image_title", "css", "max_nodes"}


def test_faulty_options():
    for faulty in ({"style": "fat"}, {"links": "all"}, {"tables": "some"}, {"images": "all"}, {"max_width": 0}, {"max_width": 2**64}, {"max_nodes": 0}, {"max_nodes": 2**64}):
        with pytest.raises(ValueError):
            Options(**faulty)
    with pytest.raises(BadBase):
        render("a", options=Options(base="a.html"))
    with pytest.raises(BadStyleSheet):
        render("a", options=Options(css="h1"))
    with pytest.raises(BadCharset):
        render(b"a", charset="klingon")
    for text in ("utf-8\0", "\0"):
        with pytest.raises(ValueError):
            render(b"a", charset=text)
    with pytest.raises(ValueError):
        render("a", charset="utf-8")


def test_a_page_that_is_too_large():
    with pytest.raises(TooLarge):
        render(b"<hr>" * 5_000_001)


def test_the_limit_of_nodes():
    assert render(b"<p>a", options=Options(max_nodes=6)) == "a\n"
    assert len(render_lines(b"<p>a", options=Options(max_nodes=6))) == 1
    for call, nodes in ((render, 5), (render_lines, 5), (render, 1)):
        with pytest.raises(TooLarge):
            call(b"<p>a", options=Options(max_nodes=nodes))
    assert render(b"<p>a", options=Options(max_nodes=(1 << 64) - 1)) == "a\n"
    for nodes in (0, -1, 1 << 64):
        with pytest.raises(ValueError, match="max_nodes is from 1"):
            Options(max_nodes=nodes)


def test_errors_are_of_two_kinds():
    assert issubclass(BadCharset, ValueError) and issubclass(BadCharset, Error)
    assert not issubclass(TooNarrow, ValueError)


def test_cases_of_what_a_browser_shows():
    text = (Path(__file__).resolve().parents[2] / "shown" / "cases.txt").read_text(encoding="utf-8")
    cases = [it.partition("\n")[2].partition("\n---\n") for it in text.split("\n=== ")[1:]]
    assert len(cases) > 40
    for page, _, wanted in cases:
        assert render(page, 20, options=Options(narrow=True)).rstrip("\n") == wanted.rstrip("\n"), page


def test_threads_run_at_the_same_time():
    page = b"<p>" + b"one <em>two</em> three " * 200_000
    rendering = threading.Thread(target=render, args=(page,))
    rendering.start()
    turns = 0
    while rendering.is_alive():
        turns += 1
        time.sleep(0.001)
    # under a lock, this thread would have no turn but at the ends
    assert turns > 20


def test_the_package():
    assert html_render.__version__ == "0.1.0"
    assert set(html_render.__all__) <= set(dir(html_render))
    assert sys.modules["html_render"].__doc__
    assert (Path(html_render.__file__).parent / "py.typed").exists()
