// sha256.c: the SHA-256 digest (FIPS 180-4) of a byte string.
// SPDX-License-Identifier: MIT
#include "sha256.h"
#include <stdio.h>
#include <string.h>

enum { BLOCK = 64, ROUNDS = 64 };

static const uint32_t constants[ROUNDS] = {
    0x428a2f98, 0x71374491, 0xb5c0fbcf, 0xe9b5dba5, 0x3956c25b, 0x59f111f1, 0x923f82a4, 0xab1c5ed5, 0xd807aa98, 0x12835b01, 0x243185be,
    0x550c7dc3, 0x72be5d74, 0x80deb1fe, 0x9bdc06a7, 0xc19bf174, 0xe49b69c1, 0xefbe4786, 0x0fc19dc6, 0x240ca1cc, 0x2de92c6f, 0x4a7484aa,
    0x5cb0a9dc, 0x76f988da, 0x983e5152, 0xa831c66d, 0xb00327c8, 0xbf597fc7, 0xc6e00bf3, 0xd5a79147, 0x06ca6351, 0x14292967, 0x27b70a85,
    0x2e1b2138, 0x4d2c6dfc, 0x53380d13, 0x650a7354, 0x766a0abb, 0x81c2c92e, 0x92722c85, 0xa2bfe8a1, 0xa81a664b, 0xc24b8b70, 0xc76c51a3,
    0xd192e819, 0xd6990624, 0xf40e3585, 0x106aa070, 0x19a4c116, 0x1e376c08, 0x2748774c, 0x34b0bcb5, 0x391c0cb3, 0x4ed8aa4a, 0x5b9cca4f,
    0x682e6ff3, 0x748f82ee, 0x78a5636f, 0x84c87814, 0x8cc70208, 0x90befffa, 0xa4506ceb, 0xbef9a3f7, 0xc67178f2};

static uint32_t turned(uint32_t x, unsigned by) { return x >> by | x << (32 - by); }

// The 64 words that a block is made into.
static void schedule(const uint8_t *block, uint32_t *w) {
    for (size_t i = 0; i < 16; i++) {
        const uint8_t *s = block + 4 * i;
        w[i] = (uint32_t)s[0] << 24 | (uint32_t)s[1] << 16 | (uint32_t)s[2] << 8 | s[3];
    }
    for (size_t i = 16; i < ROUNDS; i++) {
        uint32_t near = turned(w[i - 2], 17) ^ turned(w[i - 2], 19) ^ w[i - 2] >> 10;
        uint32_t far = turned(w[i - 15], 7) ^ turned(w[i - 15], 18) ^ w[i - 15] >> 3;
        w[i] = near + w[i - 7] + far + w[i - 16];
    }
}

static void compress(uint32_t state[8], const uint8_t *block) {
    uint32_t w[ROUNDS], v[8];
    schedule(block, w);
    memcpy(v, state, sizeof v);
    for (size_t i = 0; i < ROUNDS; i++) {
        uint32_t high = turned(v[4], 6) ^ turned(v[4], 11) ^ turned(v[4], 25), choice = (v[4] & v[5]) ^ (~v[4] & v[6]);
        uint32_t low = turned(v[0], 2) ^ turned(v[0], 13) ^ turned(v[0], 22);
        uint32_t most = (v[0] & v[1]) ^ (v[0] & v[2]) ^ (v[1] & v[2]), first = v[7] + high + choice + constants[i] + w[i];
        memmove(v + 1, v, 7 * sizeof *v);
        v[4] += first;
        v[0] = first + low + most;
    }
    for (size_t i = 0; i < 8; i++) state[i] += v[i];
}

// The last bytes, a one bit, zeros, and how many bits there were: one block, or two.
static void finish(uint32_t state[8], const uint8_t *rest, size_t left, uint64_t bits) {
    uint8_t last[2 * BLOCK] = {0};
    size_t blocks = left + 9 <= BLOCK ? 1 : 2;
    if (left != 0) memcpy(last, rest, left);
    last[left] = 0x80;
    for (size_t i = 0; i < 8; i++) last[blocks * BLOCK - 1 - i] = (uint8_t)(bits >> 8 * i);
    for (size_t i = 0; i < blocks; i++) compress(state, last + i * BLOCK);
}

void sha256(const uint8_t *s, size_t n, uint8_t digest[SHA256_BYTES]) {
    uint32_t state[8] = {0x6a09e667, 0xbb67ae85, 0x3c6ef372, 0xa54ff53a, 0x510e527f, 0x9b05688c, 0x1f83d9ab, 0x5be0cd19};
    size_t at = 0;
    for (; n - at >= BLOCK; at += BLOCK) compress(state, s + at);
    finish(state, at < n ? s + at : NULL, n - at, (uint64_t)n * 8);
    for (size_t i = 0; i < SHA256_BYTES; i++) digest[i] = (uint8_t)(state[i / 4] >> (24 - 8 * (i % 4)));
}

char *sha256_text(const uint8_t *s, size_t n, char text[SHA256_DIGITS + 1]) {
    uint8_t digest[SHA256_BYTES];
    sha256(s, n, digest);
    for (size_t i = 0; i < SHA256_BYTES; i++) sprintf(text + 2 * i, "%02x", (unsigned)digest[i]);
    return text;
}
