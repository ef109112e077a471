/* Prints a page of HTML as text. */
#include <html_render.h>
#include <stdio.h>
#include <string.h>

int main(void) {
    const char *page = "<p>Hello <em>wide</em> world";
    char *text;
    size_t length;
    if (html_render_html(page, strlen(page), 11, NULL, &text, &length) != HTML_RENDER_OK)
        return 1;
    fwrite(text, 1, length, stdout);
    html_render_free(text);
    return 0;
}
