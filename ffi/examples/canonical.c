/* Writes the canonical text of standard input. Built by: gcc canonical.c $(pkg-config --cflags --libs miniserde) */
#include <miniserde.h>
#include <stdio.h>
#include <stdlib.h>

int main(void)
{
    size_t len = 0, room = 1 << 16, got, written;
    char *text = malloc(room), *out = NULL, *more;
    int status = 3;
    while (text && (got = fread(text + len, 1, room - len, stdin)) > 0)
        if ((len += got) == room) {
            if (!(more = realloc(text, room *= 2)))
                free(text);
            text = more;
        }
    /* The part before a read error may be JSON too, such as 12 of 123. */
    if (ferror(stdin)) {
        free(text);
        return 4;
    }
    /* The canonical text is never longer than the text. The call takes no null pointer, and malloc(0) may return one. */
    if (text && (out = malloc(len + 1))) {
        switch (miniserde_canonical(text, len, out, len, &written)) {
        case MINISERDE_OK:
            status = fwrite(out, 1, written, stdout) == written && fflush(stdout) == 0 ? 0 : 5;
            break;
        case MINISERDE_INVALID:
            status = 1;
            break;
        default:
            break;
        }
    }
    free(out);
    free(text);
    return status;
}
