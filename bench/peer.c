/* The frames of `gp_bench cipher` sealed by mbedTLS, with the same arguments and the same output.
   Built with -DTABLES and the static library, the processor's AES instructions are not used. */
#include <mbedtls/ccm.h>
#include <stdint.h>
#include <stdio.h>
#include <stdlib.h>
#include <string.h>

#ifdef TABLES
int mbedtls_aesni_has_support(unsigned int what) {
    (void)what;
    return 0;
}
#endif

static const unsigned char KEY[16] = {0xc0, 0xc1, 0xc2, 0xc3, 0xc4, 0xc5, 0xc6, 0xc7,
                                      0xc8, 0xc9, 0xca, 0xcb, 0xcc, 0xcd, 0xce, 0xcf};
static const unsigned char HEADER[10] = {0x8c, 0x30, 0x21, 0x43, 0x65, 0x87, 0, 0, 0, 0};

static void put(unsigned char *to, uint32_t number) {
    for (int i = 0; i < 4; i++) to[i] = (unsigned char)(number >> (8 * i));
}

int main(int argc, char **argv) {
    if (argc != 5) return 2;
    int encrypt = atoi(argv[2]) == 3;
    size_t octets = (size_t)atoi(argv[3]);
    uint32_t frames = (uint32_t)strtoul(argv[4], NULL, 10);
    if (octets > 104) return 2;
    unsigned char frame[114], cipher[114], tag[4];
    unsigned char nonce[13] = {0x21, 0x43, 0x65, 0x87, 0x21, 0x43, 0x65, 0x87, 0, 0, 0, 0, 0x05};
    uint32_t sum = 0;
    memset(frame, 0x20, sizeof frame);
    memcpy(frame, HEADER, 10);
    mbedtls_ccm_context context;
    mbedtls_ccm_init(&context);
    for (uint32_t counter = 0; counter < frames; counter++) {
        put(frame + 6, counter);
        put(nonce + 8, counter);
        if (mbedtls_ccm_setkey(&context, MBEDTLS_CIPHER_ID_AES, KEY, 128) != 0) return 1;
        size_t aad = encrypt ? 10 : 10 + octets;
        size_t message = encrypt ? octets : 0;
        if (mbedtls_ccm_star_encrypt_and_tag(&context, message, nonce, 13, frame, aad, frame + 10,
                                             cipher, tag, 4) != 0)
            return 1;
        for (int i = 0; i < 4; i++) sum = sum * 31 + tag[i];
    }
    mbedtls_ccm_free(&context);
    printf("frames %u sum %u\n", frames, sum);
    return 0;
}
