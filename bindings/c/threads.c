/* Renders pages in eight threads at once, and compares each text with that of one thread. */
#include "html_render.h"

#include <pthread.h>
#include <stdio.h>
#include <string.h>

enum { THREADS = 8, PAGES = 4 };

static const char *const pages[PAGES] = {
    "<h1>One</h1><p>Two <em>three</em> <a href=four>five</a><ul><li>six<li>seven</ul>",
    "<table border=1><tr><th>One<th>Two<tr><td>three<td>four five six</table><script>seven()</script>",
    "<meta charset=koi8-r><p lang=ru data-unknown-attribute=x>\xcd\xc9\xd2<custom-element>a</custom-element>",
    "<style>p.a { color: #aa0000 }</style><p class=a style='color: red'>One</p><pre>two\n  three</pre><svg><title>four</title></svg>",
};

static char *texts[PAGES];
static int rounds;

/* Returns the text of a page, or NULL. */
static char *text_of(int page) {
    struct html_render_options options = {0};
    char *text;
    size_t length;
    options.size = sizeof options;
    options.css = "h1 { display: none }";
    options.flags = HTML_RENDER_FLAG_PAGE_CSS;
    html_render_html(pages[page], strlen(pages[page]), 20, &options, &text, &length);
    return text;
}

/* Renders all pages some times. Returns NULL if each text is the one of `texts`. */
static void *render(void *unused) {
    int round, page;
    for (round = 0; round < rounds; round++) {
        for (page = 0; page < PAGES; page++) {
            char *text = text_of(page);
            int is_same = text && !strcmp(text, texts[page]);
            html_render_free(text);
            if (!is_same)
                return texts;
        }
    }
    return unused;
}

int main(int count, char **words) {
    pthread_t threads[THREADS];
    int at, failed = 0;
    rounds = count > 1 && sscanf(words[1], "%d", &at) == 1 ? at : 100;
    for (at = 0; at < PAGES; at++) {
        texts[at] = text_of(at);
        if (!texts[at])
            return 1;
    }
    for (at = 0; at < THREADS; at++) {
        if (pthread_create(&threads[at], NULL, render, NULL))
            return 1;
    }
    for (at = 0; at < THREADS; at++) {
        void *given;
        if (pthread_join(threads[at], &given) || given)
            failed = 1;
    }
    for (at = 0; at < PAGES; at++)
        html_render_free(texts[at]);
    printf("%d threads, %d pages each\n", THREADS, rounds * PAGES);
    return failed;
}
