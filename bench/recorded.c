/* Renders the document of a script by the calls of html_render.h, as a parser in C would make it.
 *
 *   recorded WIDTH text|lines < SCRIPT
 *
 * `text` prints the document as plain text, `lines` prints nothing of its annotated lines. A script has a call on each line, in the form that
 * `documents` writes: `<name`, `@name=value`, `"text`, `!comment`, `>`. The status is 1 if the script has another line, or memory is out.
 *
 * The instructions of the library's own call are those of html_render_text and html_render_lines:
 *
 *   valgrind --tool=callgrind --toggle-collect=html_render_text recorded 80 text < SCRIPT
 */
#define _GNU_SOURCE
#include "html_render.h"

#include <stdio.h>
#include <stdlib.h>
#include <string.h>

enum { MOST_OPEN = 1 << 21 };

/* the elements that are open, outermost first; the first is the document */
static html_render_node open_nodes[MOST_OPEN];
static size_t open_count = 1;

/* Replaces `\n` and `\\` in place. Returns the length that is left. */
static size_t unescape(char *text, size_t length)
{
    size_t to = 0;
    for (size_t from = 0; from < length; from++) {
        if (text[from] == '\\' && from + 1 < length)
            text[to++] = text[++from] == 'n' ? '\n' : text[from];
        else
            text[to++] = text[from];
    }
    return to;
}

/* Makes the call of a line. Returns whether it is one. */
static int call(html_render_recording *page, char *line, size_t length)
{
    html_render_node innermost = open_nodes[open_count - 1], made;
    char *rest = line + 1, *equals;
    size_t size = length - 1;
    switch (line[0]) {
    case '<':
        if (open_count == MOST_OPEN)
            return 0;
        made = html_render_element(page, HTML_RENDER_HTML, rest, size);
        html_render_append(page, innermost, made);
        open_nodes[open_count++] = made;
        return 1;
    case '@':
        equals = memchr(rest, '=', size);
        if (!equals)
            return 0;
        html_render_attribute(page, innermost, HTML_RENDER_NO_NAMESPACE, rest, equals - rest, equals + 1, unescape(equals + 1, rest + size - equals - 1));
        return 1;
    case '"':
        html_render_append_text(page, innermost, rest, unescape(rest, size));
        return 1;
    case '!':
        made = html_render_comment(page, rest, unescape(rest, size));
        html_render_append(page, innermost, made);
        return 1;
    case '>':
        return open_count-- > 1;
    default:
        return 0;
    }
}

/* Makes the calls of all lines of the standard input. Returns whether each line is one. */
static int record(html_render_recording *page)
{
    char *line = NULL;
    size_t room = 0;
    ssize_t length;
    int is_good = 1;
    while (is_good && (length = getline(&line, &room, stdin)) > 0) {
        if (line[length - 1] == '\n')
            length--;
        is_good = length > 0 && call(page, line, length);
    }
    free(line);
    return is_good;
}

int main(int count, char **words)
{
    html_render_recording *page = html_render_new();
    char *rendered = NULL;
    size_t size = 0, width;
    int status;
    if (count != 3 || !page) {
        fprintf(stderr, "usage: recorded WIDTH text|lines < SCRIPT\n");
        return 1;
    }
    width = strtoull(words[1], NULL, 10);
    if (!record(page))
        return 1;
    /* the settings of html2text's configuration of plain text, which `htree` has too */
    html_render_set(page, HTML_RENDER_DO_DECORATE, 0, NULL);
    html_render_set(page, HTML_RENDER_LINK_FOOTNOTES, 1, NULL);
    if (strcmp(words[2], "text") == 0) {
        status = html_render_text_of(page, HTML_RENDER_PLAIN, width, &rendered, &size);
        if (status == HTML_RENDER_OK)
            fwrite(rendered, 1, size, stdout);
    } else {
        status = html_render_lines_of(page, HTML_RENDER_RICH, width, &rendered, &size);
    }
    html_render_free(rendered);
    html_render_drop(page);
    return status;
}
