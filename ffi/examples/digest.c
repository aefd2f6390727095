/* Prints the SHA-256 of what `canon --unique` writes for standard input: one digest for every spelling of a document.
 * Prints nothing if that fails or a read fails. Built by: gcc digest.c $(pkg-config --cflags --libs miniserde libcrypto) */
#include <miniserde.h>
#include <openssl/evp.h>
#include <stdio.h>
#include <stdlib.h>

/* Writes the digest of a document to `digest`. Refuses a document with duplicate names: another reader might take the
 * first of them. */
static miniserde_status digest_of(const char *text, size_t len, unsigned char digest[32])
{
    size_t written;
    char *out = malloc(len + 1);
    if (!out)
        return MINISERDE_MEMORY;
    miniserde_status status = miniserde_canonical_unique(text, len, out, len, &written);
    if (status == MINISERDE_OK && !EVP_Digest(out, written, digest, NULL, EVP_sha256(), NULL))
        status = MINISERDE_MEMORY;
    free(out);
    return status;
}

int main(void)
{
    static char text[1 << 20];
    unsigned char digest[32];
    size_t len = fread(text, 1, sizeof text, stdin);
    if (ferror(stdin) || len == sizeof text || digest_of(text, len, digest) != MINISERDE_OK)
        return 1;
    for (int at = 0; at < 32; at++)
        printf("%02x", digest[at]);
    puts("");
    return fflush(stdout) == 0 ? 0 : 1;
}
