"""Numbers of html_render.h: what options say, by their names in Python."""

STYLES = {"plain": 0, "rich": 1, "bare": 2}
LINKS = {None: 0, "notes": 1, "inline": 2, "list": 3, "none": 4}
TABLES = {"data": 0, "all": 1, "none": 2}
IMAGES = {"none": 0, "always": 1, "name": 3}
IMAGE_REPLACE = 2
FLAGS = {
    "title": 1,
    "page_css": 2,
    "keep_controls": 4,
    "wrap_links": 8,
    "wrap_code": 16,
    "row_rules": 32,
    "raw_tables": 64,
    "cut_words": 128,
    "no_borders": 256,
    "fence_tables": 512,
    "pad": 1024,
    "narrow": 2048,
}
