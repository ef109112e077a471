"""Annotated lines."""

from html_render import Annotation, Fragment, Options, Text, render, render_lines


def test_each_annotation():
    page = (
        "<p><b style='color: #010203; background-color: #040506'>a</b><em>b</em><s>c</s><code>d</code>"
        "<a href=e>f</a><img src=g alt=h><p id=i>j<pre>abc</pre>"
    )
    lines = render_lines(page, 6, options=Options(wrap_code=True))
    found = {annotation for line in lines for it in line if isinstance(it, Text) for annotation in it.annotations}
    kinds = {it.kind for it in found}
    assert kinds >= {"strong", "emphasis", "strikeout", "code", "link", "image", "colour", "background", "preformatted"}
    assert {Annotation("link", "e"), Annotation("image", "g"), Annotation("colour", "#010203"), Annotation("background", "#040506")} <= found
    assert any(Fragment("i") in line for line in lines)


def test_lines_have_the_text_of_render():
    page = "<h1>One</h1><p>two <em>three</em> <a href=four>five</a><ul><li>six<li>seven</ul><table border=1><tr><td>a<td>b</table>"
    for style in ("plain", "rich", "bare"):
        options = Options(style=style)
        lines = render_lines(page, 20, options=options)
        text = "".join("".join(it.text for it in line if isinstance(it, Text)) + "\n" for line in lines)
        assert text == render(page, 20, options=options)


def test_plain_lines_have_no_annotations_of_their_own():
    lines = render_lines("<p>a <em>b</em>", options=Options(style="plain"))
    assert {annotation.kind for line in lines for it in line for annotation in it.annotations} <= {"default"}
    assert render_lines("") == []
