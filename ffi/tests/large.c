/* Makes each call on wide texts of 70 KiB, 40 MB and 70 MB, and on deep ones of an eighth of that, with all the memory that
 * it takes: none may return MINISERDE_MEMORY, and each result is compared with one that was written beside the text. */
#include <miniserde.h>
#include <stdio.h>
#include <stdlib.h>
#include <string.h>

struct texts {
    char *text, *canonical;
    size_t text_len, canonical_len;
};

static int failures, checks;

static void expect(int holds, const char *what, size_t size)
{
    checks++;
    if (!holds) {
        failures++;
        printf("FAILED: %s: a text of %zu bytes\n", what, size);
    }
}

static void *room(size_t size)
{
    void *made = malloc(size);
    if (!made)
        exit(3);
    return made;
}

static char *append(char *to, const char *text)
{
    size_t len = strlen(text);
    memcpy(to, text, len);
    return to + len;
}

/* Returns an array of objects with two members in the wrong order, of `size` bytes or a little more. */
static struct texts wide(size_t size)
{
    static char value[1000];
    struct texts it = {room(size + 2000), room(size + 2000), 0, 0};
    char *to = append(it.text, "["), *other = append(it.canonical, "[");
    memset(value, 'x', sizeof value - 1);
    while ((size_t)(to - it.text) < size) {
        to = append(append(append(to, " {\"b\": \""), value), "\", \"a\" :12},");
        other = append(append(append(other, "{\"a\":12,\"b\":\""), value), "\"},");
    }
    it.text_len = (size_t)(append(to, "0 ]") - it.text);
    it.canonical_len = (size_t)(append(other, "0]") - it.canonical);
    return it;
}

/* Returns arrays that nest, of `size` bytes, and a space. */
static struct texts deep(size_t size)
{
    size_t levels = size / 2;
    struct texts it = {room(2 * levels + 1), room(2 * levels), 2 * levels + 1, 2 * levels};
    memset(it.canonical, '[', levels);
    memset(it.canonical + levels, ']', levels);
    memcpy(it.text + 1, it.canonical, 2 * levels);
    it.text[0] = ' ';
    return it;
}

static void calls(struct texts it)
{
    char *out = room(it.text_len);
    size_t written = 0, size = it.text_len;
    expect(miniserde_is_json(it.text, size) == MINISERDE_OK, "is_json", size);
    expect(miniserde_canonical(it.text, size, out, size, &written) == MINISERDE_OK, "canonical", size);
    expect(written == it.canonical_len && memcmp(out, it.canonical, written) == 0, "the canonical text", size);
    memset(out, 0, size);
    expect(miniserde_canonical_unique(it.text, size, out, size, &written) == MINISERDE_OK, "canonical_unique", size);
    expect(written == it.canonical_len && memcmp(out, it.canonical, written) == 0, "the canonical text", size);
    expect(miniserde_equal(it.text, size, it.canonical, it.canonical_len) == MINISERDE_OK, "equal", size);
    expect(miniserde_equal("[]", 2, it.text, size) == MINISERDE_DIFFERENT, "different", size);
    free(out);
    free(it.text);
    free(it.canonical);
}

int main(void)
{
    static const size_t SIZES[] = {70 << 10, 40000000, 70000000};
    for (size_t at = 0; at < sizeof SIZES / sizeof SIZES[0]; at++) {
        calls(wide(SIZES[at]));
        calls(deep(SIZES[at] / 8));
    }
    printf("%d checks, %d failed\n", checks, failures);
    return failures != 0;
}
