/* Renders a page of HTML of at most 1 MB in 80 columns by html_render_html, so many times.
 *
 *   repeated COUNT < PAGE
 *
 * The status is 1 if a call fails.
 */
#include <html_render.h>
#include <stdio.h>
#include <stdlib.h>

enum { MAX_PAGE = 1 << 20 };

static char page[MAX_PAGE];

int main(int count, char **words)
{
    size_t length = fread(page, 1, MAX_PAGE, stdin), size;
    for (long left = count > 1 ? atol(words[1]) : 0; left > 0; left--) {
        char *text;
        if (html_render_html(page, length, 80, NULL, &text, &size) != HTML_RENDER_OK)
            return 1;
        html_render_free(text);
    }
    return 0;
}
