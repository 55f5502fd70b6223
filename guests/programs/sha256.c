// The SHA-256 digest of the input (FIPS 180-4) as 64 lower-case hexadecimal digits and a line end.
#include "romain.h"

static const uint32_t constants[64] = {
    0x428a2f98, 0x71374491, 0xb5c0fbcf, 0xe9b5dba5, 0x3956c25b, 0x59f111f1, 0x923f82a4, 0xab1c5ed5,
    0xd807aa98, 0x12835b01, 0x243185be, 0x550c7dc3, 0x72be5d74, 0x80deb1fe, 0x9bdc06a7, 0xc19bf174,
    0xe49b69c1, 0xefbe4786, 0x0fc19dc6, 0x240ca1cc, 0x2de92c6f, 0x4a7484aa, 0x5cb0a9dc, 0x76f988da,
    0x983e5152, 0xa831c66d, 0xb00327c8, 0xbf597fc7, 0xc6e00bf3, 0xd5a79147, 0x06ca6351, 0x14292967,
    0x27b70a85, 0x2e1b2138, 0x4d2c6dfc, 0x53380d13, 0x650a7354, 0x766a0abb, 0x81c2c92e, 0x92722c85,
    0xa2bfe8a1, 0xa81a664b, 0xc24b8b70, 0xc76c51a3, 0xd192e819, 0xd6990624, 0xf40e3585, 0x106aa070,
    0x19a4c116, 0x1e376c08, 0x2748774c, 0x34b0bcb5, 0x391c0cb3, 0x4ed8aa4a, 0x5b9cca4f, 0x682e6ff3,
    0x748f82ee, 0x78a5636f, 0x84c87814, 0x8cc70208, 0x90befffa, 0xa4506ceb, 0xbef9a3f7, 0xc67178f2,
};

static uint32_t state[8] = {
    0x6a09e667, 0xbb67ae85, 0x3c6ef372, 0xa54ff53a, 0x510e527f, 0x9b05688c, 0x1f83d9ab, 0x5be0cd19,
};

static uint32_t turned(uint32_t word, int places)
{
    return word >> places | word << (32 - places);
}

// Takes one block of 64 bytes into the state.
static void take_block(const uint8_t *block)
{
    uint32_t words[64];
    for (int i = 0; i < 16; i++)
        words[i] = (uint32_t)block[4 * i] << 24 | (uint32_t)block[4 * i + 1] << 16 | (uint32_t)block[4 * i + 2] << 8 | block[4 * i + 3];
    for (int i = 16; i < 64; i++) {
        uint32_t early = words[i - 15], late = words[i - 2];
        words[i] = words[i - 16] + (turned(early, 7) ^ turned(early, 18) ^ early >> 3)
            + words[i - 7] + (turned(late, 17) ^ turned(late, 19) ^ late >> 10);
    }
    uint32_t v[8];
    for (int i = 0; i < 8; i++)
        v[i] = state[i];
    for (int i = 0; i < 64; i++) {
        uint32_t choice = (v[4] & v[5]) ^ (~v[4] & v[6]);
        uint32_t most = (v[0] & v[1]) ^ (v[0] & v[2]) ^ (v[1] & v[2]);
        uint32_t first = v[7] + (turned(v[4], 6) ^ turned(v[4], 11) ^ turned(v[4], 25)) + choice + constants[i] + words[i];
        uint32_t second = (turned(v[0], 2) ^ turned(v[0], 13) ^ turned(v[0], 22)) + most;
        for (int k = 7; k > 0; k--)
            v[k] = v[k - 1];
        v[4] += first;
        v[0] = first + second;
    }
    for (int i = 0; i < 8; i++)
        state[i] += v[i];
}

// The message's end: a bit, zeros, and its length in bits, in one block or two.
static void take_end(uint8_t *rest, size_t length, uint32_t total)
{
    rest[length] = 0x80;
    memset(rest + length + 1, 0, 127 - length);
    size_t last = length < 56 ? 56 : 120;
    for (int i = 0; i < 4; i++) {
        rest[last + i] = (uint8_t)((total >> 29) >> (24 - 8 * i));
        rest[last + 4 + i] = (uint8_t)((total << 3) >> (24 - 8 * i));
    }
    take_block(rest);
    if (last == 120)
        take_block(rest + 64);
}

int main(void)
{
    static uint8_t piece[ROMAIN_PIECE + 128];
    uint32_t total = 0;
    int32_t got;
    do {
        got = read_full(piece, ROMAIN_PIECE);
        if (got < 0)
            return 1;
        total += (uint32_t)got;
        for (int32_t i = 0; i + 64 <= got; i += 64)
            take_block(piece + i);
    } while (got == ROMAIN_PIECE);
    size_t rest = (size_t)got % 64;
    memmove(piece, piece + ((size_t)got - rest), rest);
    take_end(piece, rest, total);

    uint8_t line[65];
    for (int i = 0; i < 64; i++)
        line[i] = (uint8_t)"0123456789abcdef"[state[i / 8] >> (28 - 4 * (i % 8)) & 15];
    line[64] = '\n';
    return write_all(line, sizeof line) == 0 ? 0 : 2;
}
