"""How the library is loaded: at the first call, by the variable HTML_RENDER_LIB."""

import os
import subprocess
import sys


def run(code, **environment):
    done = subprocess.run([sys.executable, "-c", code], env={**os.environ, **environment}, capture_output=True, text=True, check=False)
    return done.stdout + done.stderr


def test_it_is_loaded_at_the_first_call():
    code = "import html_render\nmaps = lambda: 'libhtml_render' in open('/proc/self/maps').read()\nprint(maps())\nhtml_render.render('')\nprint(maps())"
    assert run(code) == "False\nTrue\n"


def imported(code):
    """Returns the modules that code imports in a fresh Python."""
    shown = run(f"import sys\nbefore = set(sys.modules)\n{code}\nprint(*set(sys.modules) - before)")
    return set(shown.split())


def test_modules_are_imported_when_they_are_needed():
    assert imported("import html_render") == {"html_render"}
    assert imported("from html_render import render") <= {"html_render", "html_render._render", "__future__", "operator", "_operator"}
    slow = {"dataclasses", "email", "enum", "functools", "inspect", "pathlib", "re", "typing"}
    rendered = imported("import html_render\nhtml_render.render('<p>a')\nhtml_render.TooLarge")
    assert rendered > {"ctypes", "html_render._errors", "html_render._library"} and not rendered & slow
    assert imported("from html_render import Options") & slow and imported("from html_render import Text") & slow


def test_a_missing_library(tmp_path):
    code = "import html_render\ntry:\n    html_render.render('')\nexcept html_render.NoLibrary as error:\n    print('missing', error)"
    assert run(code, HTML_RENDER_LIB=str(tmp_path)).startswith("missing libhtml_render.so.0 can't be loaded: ")


def test_a_library_of_another_kind(tmp_path):
    (tmp_path / "libhtml_render.so.0").write_bytes(b"no library")
    code = "import html_render\ntry:\n    html_render.render('')\nexcept ImportError:\n    print('refused')"
    assert run(code, HTML_RENDER_LIB=str(tmp_path)) == "refused\n"
