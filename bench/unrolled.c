/* SHA-256 in portable C, unrolled: eight rounds in a straight group, the variables renamed. */
#include "contestant.h"
#include "sha256.h"

const int contestant_takes_bytes = 0;

/* Round t leaves the new a in h and the new e in d: the next round names them so. */
#define ROUND(a, b, c, d, e, f, g, h, t)                              \
    do {                                                              \
        uint32_t T1 = h + Sigma1(e) + Ch(e, f, g) + K[t] + W[t];      \
        d += T1;                                                      \
        h = T1 + Sigma0(a) + Maj(a, b, c);                            \
    } while (0)

void contestant_block(uint32_t chain[8], const uint32_t m[16])
{
    uint32_t W[64];
    schedule(W, m);

    uint32_t a = chain[0], b = chain[1], c = chain[2], d = chain[3];
    uint32_t e = chain[4], f = chain[5], g = chain[6], h = chain[7];
    for (int t = 0; t < 64; t += 8) {
        ROUND(a, b, c, d, e, f, g, h, t);
        ROUND(h, a, b, c, d, e, f, g, t + 1);
        ROUND(g, h, a, b, c, d, e, f, t + 2);
        ROUND(f, g, h, a, b, c, d, e, t + 3);
        ROUND(e, f, g, h, a, b, c, d, t + 4);
        ROUND(d, e, f, g, h, a, b, c, t + 5);
        ROUND(c, d, e, f, g, h, a, b, t + 6);
        ROUND(b, c, d, e, f, g, h, a, t + 7);
    }
    chain[0] += a;
    chain[1] += b;
    chain[2] += c;
    chain[3] += d;
    chain[4] += e;
    chain[5] += f;
    chain[6] += g;
    chain[7] += h;
}
