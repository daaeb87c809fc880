/* BearSSL's constant-time AES-256 and GHASH for words of 64 bits, as a peer of the scripts beside it: does a call over
 * BYTES bytes COUNT times, with a key of zeros, and prints the last byte that it made.
 *
 *   bearssl ctr|ghash|seal|open BYTES COUNT
 */
#include <bearssl.h>
#include <stdio.h>
#include <stdlib.h>
#include <string.h>

enum { HEADER = 13 };

static const unsigned char key[32], iv[12], header[HEADER];

static void
gcm(br_gcm_context *context, int encrypt, unsigned char *text, size_t bytes)
{
    br_gcm_reset(context, iv, sizeof iv);
    br_gcm_aad_inject(context, header, sizeof header);
    br_gcm_flip(context);
    br_gcm_run(context, encrypt, text, bytes);
}

int
main(int words, char **word)
{
    if (words != 4)
        return 2;
    const char *call = word[1];
    size_t bytes = strtoul(word[2], NULL, 10);
    unsigned long count = strtoul(word[3], NULL, 10);
    unsigned char *text = calloc(bytes + 16, 1), *sealed = malloc(bytes + 16);
    unsigned char tag[16] = {0}, subkey[16] = {1};
    br_aes_ct64_ctr_keys keys;
    br_gcm_context context;
    uint32_t opened = 1;
    if (text == NULL || sealed == NULL)
        return 2;
    br_aes_ct64_ctr_init(&keys, key, sizeof key);
    br_gcm_init(&context, &keys.vtable, br_ghash_ctmul64);
    gcm(&context, 1, text, bytes);
    br_gcm_get_tag(&context, tag);
    memcpy(sealed, text, bytes);
    for (unsigned long i = 0; i < count; i++) {
        if (strcmp(call, "ctr") == 0) {
            br_aes_ct64_ctr_run(&keys, iv, (uint32_t)i, text, bytes);
        } else if (strcmp(call, "ghash") == 0) {
            br_ghash_ctmul64(tag, subkey, text, bytes);
        } else if (strcmp(call, "seal") == 0) {
            gcm(&context, 1, text, bytes);
            br_gcm_get_tag(&context, tag);
        } else if (strcmp(call, "open") == 0) {
            memcpy(text, sealed, bytes);
            gcm(&context, 0, text, bytes);
            opened &= br_gcm_check_tag(&context, tag);
        } else {
            return 2;
        }
    }
    printf("%02x\n", tag[15] ^ text[0]);
    return opened ? 0 : 1;
}
