/* Signs a document by its canonical text, so that the signature stays good when another program writes the document
 * anew; and verifies it. Built by: gcc sign.c $(pkg-config --cflags --libs miniserde libcrypto) */
#include <miniserde.h>
#include <openssl/evp.h>
#include <stdio.h>
#include <stdlib.h>
#include <string.h>

/* Returns the canonical text of a document without duplicate names, or NULL. The caller frees it. */
static unsigned char *canonical(const char *text, size_t *written)
{
    size_t len = strlen(text);
    char *out = malloc(len + 1);
    if (out && miniserde_canonical_unique(text, len, out, len, written) == MINISERDE_OK)
        return (unsigned char *)out;
    free(out);
    return NULL;
}

/* Writes the Ed25519 signature of a document. Returns whether it did. */
static int sign(EVP_PKEY *key, const char *text, unsigned char signature[64])
{
    size_t len, length = 64;
    unsigned char *bytes = canonical(text, &len);
    EVP_MD_CTX *work = EVP_MD_CTX_new();
    int done = bytes && work && EVP_DigestSignInit(work, NULL, NULL, NULL, key) == 1
        && EVP_DigestSign(work, signature, &length, bytes, len) == 1;
    EVP_MD_CTX_free(work);
    free(bytes);
    return done;
}

/* Returns whether it is the signature of a document. */
static int verify(EVP_PKEY *key, const char *text, const unsigned char signature[64])
{
    size_t len;
    unsigned char *bytes = canonical(text, &len);
    EVP_MD_CTX *work = EVP_MD_CTX_new();
    int holds = bytes && work && EVP_DigestVerifyInit(work, NULL, NULL, NULL, key) == 1
        && EVP_DigestVerify(work, signature, 64, bytes, len) == 1;
    EVP_MD_CTX_free(work);
    free(bytes);
    return holds;
}

int main(void)
{
    unsigned char signature[64];
    EVP_PKEY *key = EVP_PKEY_Q_keygen(NULL, NULL, "ED25519");
    int signed_it = key && sign(key, "{\"to\": \"Ren\\u00e9e\", \"amount\": 12.50}", signature);
    int written_anew = signed_it && verify(key, "{\"amount\":12.50,\"to\":\"Renée\"}", signature);
    int another = signed_it && verify(key, "{\"amount\":12.5,\"to\":\"Renée\"}", signature);
    EVP_PKEY_free(key);
    printf("written anew: %s, another amount: %s\n", written_anew ? "good" : "bad", another ? "good" : "bad");
    return !(written_anew && !another);
}
