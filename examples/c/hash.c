/* The SHA-256 of a buffer (FIPS 180-4), compared with the digest that another program computed. */
#include <string.h>

#include "zsim.h"

#define BYTES 1000
#define BLOCK 64

/* The buffer, with room for the padding: a byte 0x80, zeros, and the length in bits at the end of
   a block. */
static uint8_t buffer[(BYTES + 9 + BLOCK - 1) / BLOCK * BLOCK];

static uint32_t digest[8] = {
    0x6a09e667, 0xbb67ae85, 0x3c6ef372, 0xa54ff53a, 0x510e527f, 0x9b05688c, 0x1f83d9ab, 0x5be0cd19,
};

static const uint32_t constants[64] = {
    0x428a2f98, 0x71374491, 0xb5c0fbcf, 0xe9b5dba5, 0x3956c25b, 0x59f111f1, 0x923f82a4, 0xab1c5ed5,
    0xd807aa98, 0x12835b01, 0x243185be, 0x550c7dc3, 0x72be5d74, 0x80deb1fe, 0x9bdc06a7, 0xc19bf174,
    0xe49b69c1, 0xefbe4786, 0x0fc19dc6, 0x240ca1cc, 0x2de92c6f, 0x4a7484aa, 0x5cb0a9dc, 0x76f988da,
    0x983e5152, 0xa831c66d, 0xb00327c8, 0xbf597fc7, 0xc6e00bf3, 0xd5a79147, 0x06ca6351, 0x14292967,
    0x27b70a85, 0x2e1b2138, 0x4d2c6dfc, 0x53380d13, 0x650a7354, 0x766a0abb, 0x81c2c92e, 0x92722c85,
    0xa2bfe8a1, 0xa81a664b, 0xc24b8b70, 0xc76c51a3, 0xd192e819, 0xd6990624, 0xf40e3585, 0x106aa070,
    0x19a4c116, 0x1e376c08, 0x2748774c, 0x34b0bcb5, 0x391c0cb3, 0x4ed8aa4a, 0x5b9cca4f, 0x682e6ff3,
    0x748f82ee, 0x78a5636f, 0x84c87814, 0x8cc70208, 0x90befffa, 0xa4506ceb, 0xbef9a3f7, 0xc67178f2,
};

/* The digest of the bytes 0, 7, 14, .. modulo 251, by Python's hashlib. */
static const uint32_t wanted[8] = {
    0x59425e44, 0x12e296fc, 0x74736673, 0xce067027, 0xf384203f, 0x59c0d2c3, 0xe6be7b13, 0x347b3ffc,
};

static uint32_t rotate(uint32_t word, int by)
{
    return word >> by | word << (32 - by);
}

/* Takes a block into the digest. */
static void compress(const uint8_t *block)
{
    uint32_t words[64];
    for (int i = 0; i < 16; i++)
        words[i] = (uint32_t)block[4 * i] << 24 | (uint32_t)block[4 * i + 1] << 16
            | (uint32_t)block[4 * i + 2] << 8 | block[4 * i + 3];
    for (int i = 16; i < 64; i++) {
        uint32_t a = words[i - 15], b = words[i - 2];
        words[i] = words[i - 16] + (rotate(a, 7) ^ rotate(a, 18) ^ a >> 3) + words[i - 7]
            + (rotate(b, 17) ^ rotate(b, 19) ^ b >> 10);
    }
    uint32_t s[8];
    memcpy(s, digest, sizeof s);
    for (int i = 0; i < 64; i++) {
        uint32_t first = s[7] + (rotate(s[4], 6) ^ rotate(s[4], 11) ^ rotate(s[4], 25))
            + ((s[4] & s[5]) ^ (~s[4] & s[6])) + constants[i] + words[i];
        uint32_t second = (rotate(s[0], 2) ^ rotate(s[0], 13) ^ rotate(s[0], 22))
            + ((s[0] & s[1]) ^ (s[0] & s[2]) ^ (s[1] & s[2]));
        memmove(s + 1, s, 7 * sizeof s[0]);
        s[4] += first;
        s[0] = first + second;
    }
    for (int i = 0; i < 8; i++)
        digest[i] += s[i];
}

static void print_digest(void)
{
    for (int i = 0; i < 8; i++)
        for (int shift = 28; shift >= 0; shift -= 4) {
            char digit[2] = { "0123456789abcdef"[digest[i] >> shift & 15], 0 };
            print(digit);
        }
    print("\n");
}

int main(void)
{
    for (int i = 0; i < BYTES; i++)
        buffer[i] = (uint8_t)(7 * i % 251);
    buffer[BYTES] = 0x80;
    uint64_t bits = 8 * BYTES;
    for (int i = 0; i < 8; i++)
        buffer[sizeof buffer - 1 - i] = (uint8_t)(bits >> 8 * i);
    for (size_t at = 0; at < sizeof buffer; at += BLOCK)
        compress(buffer + at);
    print_digest();
    return memcmp(digest, wanted, sizeof digest) == 0 ? 0 : 1;
}
