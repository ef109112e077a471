"""Options as a data class."""

import copy
import dataclasses
import inspect
import pickle
import typing

import html_render
import pytest
from html_render import Options

NAMES = [
    "style",
    "links",
    "base",
    "wrap_links",
    "tables",
    "row_rules",
    "raw_tables",
    "cut_words",
    "no_borders",
    "fence_tables",
    "wrap_code",
    "max_width",
    "pad",
    "images",
    "image_title",
    "narrow",
    "title",
    "css",
    "page_css",
    "keep_controls",
    "max_nodes",
]
OTHERS = Options("rich", links="inline", max_width=40, pad=True, css="b { color: red }")


def test_fields():
    fields = dataclasses.fields(Options)
    assert [it.name for it in fields] == NAMES == [it.name for it in dataclasses.fields(OTHERS)] == list(Options.__match_args__)
    defaults = {it.name: it.default for it in fields}
    assert defaults == dataclasses.asdict(Options()) == {it: getattr(Options, it) for it in NAMES}
    assert dataclasses.is_dataclass(Options) and all(it.init and it.repr and it.compare and not it.kw_only for it in fields)
    assert set(typing.get_type_hints(Options)) == set(NAMES)


def test_signature():
    parameters = inspect.signature(Options).parameters.values()
    assert [(it.name, it.default) for it in parameters] == [(it, getattr(Options, it)) for it in NAMES]
    assert {it.kind for it in parameters} == {inspect.Parameter.POSITIONAL_OR_KEYWORD}
    with pytest.raises(TypeError, match="unexpected keyword argument 'colour'"):
        Options(colour=True)


def test_copies():
    changed = dataclasses.replace(OTHERS, links="list", title=True)
    assert (changed.style, changed.links, changed.title, changed.max_width) == ("rich", "list", True, 40)
    with pytest.raises(ValueError, match="links is one of notes"):
        dataclasses.replace(OTHERS, links="all")
    for made in (copy.copy(OTHERS), copy.deepcopy(OTHERS), dataclasses.replace(OTHERS), Options(**dataclasses.asdict(OTHERS))):
        assert made == OTHERS and made is not OTHERS
    for protocol in range(pickle.HIGHEST_PROTOCOL + 1):
        assert pickle.loads(pickle.dumps(OTHERS, protocol)) == OTHERS


def test_they_are_values():
    assert Options() == Options() != OTHERS
    assert OTHERS != dataclasses.astuple(OTHERS)
    assert {Options(), Options(style=None), OTHERS} == {Options(), OTHERS}
    for change in (lambda: setattr(OTHERS, "style", "bare"), lambda: setattr(OTHERS, "colour", 1), lambda: delattr(OTHERS, "style")):
        with pytest.raises(dataclasses.FrozenInstanceError):
            change()


def test_repr():
    shown = repr(OTHERS)
    assert shown.startswith("Options(style='rich', links='inline', base=None, wrap_links=False, tables='data', ")
    assert eval(shown) == OTHERS


def test_no_options_are_the_defaults():
    page = "<title>a</title><p>b <em>c</em> <a href=d>e</a><table border=1><tr><td>f<td>g</table>"
    assert html_render.render(page, options=None) == html_render.render(page) == html_render.render(page, options=Options())
    assert html_render.render_lines(page, options=None) == html_render.render_lines(page) == html_render.render_lines(page, options=Options())
