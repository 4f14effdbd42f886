/* SHA-256 in portable C as FIPS 180-4 writes it: one loop of 64 rounds that moves the variables. */
#include "contestant.h"
#include "sha256.h"

const int contestant_takes_bytes = 0;

void contestant_block(uint32_t chain[8], const uint32_t m[16])
{
    uint32_t W[64];
    schedule(W, m);

    uint32_t a = chain[0], b = chain[1], c = chain[2], d = chain[3];
    uint32_t e = chain[4], f = chain[5], g = chain[6], h = chain[7];
    for (int t = 0; t < 64; t++) {
        uint32_t T1 = h + Sigma1(e) + Ch(e, f, g) + K[t] + W[t];
        uint32_t T2 = Sigma0(a) + Maj(a, b, c);
        h = g;
        g = f;
        f = e;
        e = d + T1;
        d = c;
        c = b;
        b = a;
        a = T1 + T2;
    }
    chain[0] += a;
    chain[1] += b;
    chain[2] += c;
    chain[3] += d;
    chain[4] += e;
    chain[5] += f;
    chain[6] += g;
    chain[7] += h;
}
