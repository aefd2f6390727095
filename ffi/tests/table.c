/* Tests the library as C calls it, on the table of texts of crates/grammar_table. Each text and each buffer is a block
 * of its own, of its exact length, so that valgrind and AddressSanitizer see a byte too far. Linked with
 * -Wl,--wrap=malloc,--wrap=realloc,--wrap=free, by which it counts the library's blocks and fails its requests.
 *   table TABLE */
#include <miniserde.h>
#include <stdio.h>
#include <stdlib.h>
#include <string.h>

static long blocks, requests, failing; /* `failing` is the number of the request that fails; 0: none. */
static int inside;
void *__real_malloc(size_t), *__real_realloc(void *, size_t), __real_free(void *);

void *__wrap_malloc(size_t n)
{
    if (inside && ++requests == failing)
        return NULL;
    void *p = __real_malloc(n);
    blocks += inside && p;
    return p;
}

void *__wrap_realloc(void *old, size_t n)
{
    return inside && ++requests == failing ? NULL : __real_realloc(old, n);
}

void __wrap_free(void *p)
{
    blocks -= inside && p;
    __real_free(p);
}

static int failures, checks;
static const char *at;

static void expect(int holds, const char *what)
{
    checks++;
    if (!holds) {
        failures++;
        printf("FAILED: %s: %s\n", what, at);
    }
}

struct bytes {
    char *start;
    size_t len;
};

/* Returns a block of exactly these bytes; one byte for none. */
static struct bytes block(const char *start, size_t len)
{
    struct bytes made = {malloc(len ? len : 1), len};
    if (!made.start)
        exit(3);
    memcpy(made.start, start, len);
    return made;
}

/* Decodes a field of the table in place: % and two hexadecimal digits are a byte. */
static struct bytes field(char *text)
{
    char *to = text;
    for (char *from = text; *from; to++) {
        unsigned byte;
        if (*from == '%' && sscanf(from + 1, "%2x", &byte) == 1) {
            *to = (char)byte;
            from += 3;
        } else {
            *to = *from++;
        }
    }
    return block(text, (size_t)(to - text));
}

typedef miniserde_status canonical_call(const char *, size_t, char *, size_t, size_t *);

/* Makes a call with so much room, and checks the bytes and what stays as it was. Returns the status. */
static int in_room(canonical_call *call, struct bytes text, size_t room, const struct bytes *wanted)
{
    struct bytes out = {malloc(room ? room : 1), room};
    size_t written = 12345, kept;
    memset(out.start, 0xA5, room ? room : 1);
    inside = 1;
    int status = call(text.start, text.len, out.start, room, &written);
    inside = 0;
    if (status == MINISERDE_OK)
        expect(wanted && written == wanted->len && memcmp(out.start, wanted->start, written) == 0, "the canonical text");
    else if (status == MINISERDE_ROOM)
        expect(wanted && written == wanted->len && room < written, "the length that is needed");
    else
        expect(written == 0, "nothing was written");
    for (kept = status == MINISERDE_OK ? written : 0; kept < room && (unsigned char)out.start[kept] == 0xA5; kept++)
        ;
    expect(kept == room, "the bytes behind are as they were");
    expect(blocks == 0, "every block was freed");
    free(out.start);
    return status;
}

/* Fails each request of the call, up to the first run that makes fewer. */
static void without_memory(canonical_call *call, struct bytes text, const struct bytes *wanted)
{
    for (long n = 1;; n++) {
        requests = 0, failing = n;
        int status = in_room(call, text, text.len, wanted);
        failing = 0;
        if (requests < n)
            return;
        expect(status == MINISERDE_MEMORY || status == (wanted ? MINISERDE_OK : MINISERDE_INVALID), "out of memory");
    }
}

/* The same of is_json, which makes one request for a text of at most 64 levels, and none for its strings. */
static void is_json_without_memory(struct bytes text, int wanted)
{
    for (long n = 1;; n++) {
        requests = 0, failing = n, inside = 1;
        int status = miniserde_is_json(text.start, text.len);
        failing = 0, inside = 0;
        expect(blocks == 0, "every block was freed");
        if (requests < n) {
            expect(status == wanted, "is_json");
            return;
        }
        expect(status == MINISERDE_MEMORY || status == wanted, "is_json out of memory");
        expect(n == 1 || text.len > 64, "is_json with one request");
    }
}

/* The same of equal. */
static void equal_without_memory(struct bytes a, struct bytes b, int wanted)
{
    for (long n = 1;; n++) {
        requests = 0, failing = n, inside = 1;
        int status = miniserde_equal(a.start, a.len, b.start, b.len);
        failing = 0, inside = 0;
        expect(blocks == 0, "every block was freed");
        expect(status == wanted || (requests >= n && status == MINISERDE_MEMORY), "equal out of memory");
        if (requests < n)
            return;
    }
}

static void one(struct bytes text, const struct bytes *wanted)
{
    is_json_without_memory(text, wanted ? MINISERDE_OK : MINISERDE_INVALID);
    without_memory(miniserde_canonical, text, wanted);
    size_t alone = 12345;
    inside = 1;
    int asked = miniserde_canonical(text.start, text.len, text.start, 0, &alone);
    inside = 0;
    expect(asked == (wanted ? MINISERDE_ROOM : MINISERDE_INVALID) && alone == (wanted ? wanted->len : 0), "the length alone");
    int unique = in_room(miniserde_canonical_unique, text, text.len, wanted);
    expect(unique == MINISERDE_INVALID || (wanted && unique == MINISERDE_OK), "canonical_unique");
    without_memory(miniserde_canonical_unique, text, unique == MINISERDE_OK ? wanted : NULL);
    for (size_t room = 0; room <= text.len; room++) {
        int status = in_room(miniserde_canonical, text, room, wanted);
        expect(status == (!wanted ? MINISERDE_INVALID : room < wanted->len ? MINISERDE_ROOM : MINISERDE_OK), "the status");
    }
    struct bytes other = wanted ? *wanted : text;
    equal_without_memory(text, other, wanted ? MINISERDE_OK : MINISERDE_INVALID);
    inside = 1;
    int same = miniserde_equal(text.start, text.len, other.start, other.len);
    int differs = miniserde_equal("[7,\"no row\"]", 12, text.start, text.len);
    inside = 0;
    expect(same == (wanted ? MINISERDE_OK : MINISERDE_INVALID), "equal");
    expect(differs == (wanted ? MINISERDE_DIFFERENT : MINISERDE_INVALID), "different");
    expect(blocks == 0, "every block was freed");
}

int main(int argc, char **argv)
{
    static char line[1 << 20], kept[1 << 20];
    FILE *table = argc == 2 ? fopen(argv[1], "r") : NULL;
    int rows = 0;
    if (!table)
        return 2;
    while (fgets(line, sizeof line, table)) {
        line[strcspn(line, "\n")] = 0;
        if (!*line || *line == '#')
            continue;
        at = strcpy(kept, line);
        char *verdict = strchr(line, '\t');
        char *first = verdict ? strchr(verdict + 1, '\t') : NULL;
        if (!first)
            return 2;
        char *second = strchr(first + 1, '\t');
        if (second)
            *second++ = 0;
        struct bytes text = field(first + 1);
        if (verdict[1] == 'a') {
            struct bytes wanted = field(second);
            one(text, &wanted);
            free(wanted.start);
        } else {
            one(text, NULL);
        }
        free(text.start);
        rows++;
    }
    fclose(table);
    printf("%d texts, %d checks, %d failed\n", rows, checks, failures);
    return failures != 0 || rows == 0;
}
