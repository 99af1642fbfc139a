/* Reads a case text as documents 01 and 02 say, by hand, for bench/run to time against the proved reader.
   usage: read_case FILE TIMES      prints the last answer: 100 times the place plus the refusal number, or 0 */
#include <stdint.h>
#include <stdio.h>
#include <stdlib.h>
#include <string.h>

/* Those to which bus a counts circuits with the binary digit d are in circuits[d][a]. */
struct grid {
    size_t n;
    uint64_t nbr[64], circuits[4][64], zero, site, units;
};

static void join(struct grid *g, long a, long b, long k)
{
    g->nbr[a - 1] |= (uint64_t)1 << (b - 1);
    g->nbr[b - 1] |= (uint64_t)1 << (a - 1);
    for (int d = 0; d < 4; d++) {
        g->circuits[d][a - 1] |= (uint64_t)(k >> d & 1) << (b - 1);
        g->circuits[d][b - 1] |= (uint64_t)(k >> d & 1) << (a - 1);
    }
}

/* the number in s[a..e), or -1 where its form is wrong */
static long number(const unsigned char *s, size_t a, size_t e)
{
    if (a == e || e - a > 4 || (e - a > 1 && s[a] == '0'))
        return -1;
    long v = 0;
    for (; a < e; a++) {
        if (s[a] < '0' || s[a] > '9')
            return -1;
        v = v * 10 + (s[a] - '0');
    }
    return v;
}

static int is(const unsigned char *s, size_t a, size_t e, const char *w)
{
    size_t k = strlen(w);
    return e - a == k && memcmp(s + a, w, k) == 0;
}

static unsigned long read_case(const unsigned char *s, size_t len, struct grid *g)
{
    memset(g, 0, sizeof *g);
    if (len > 8192)
        return 1;
    size_t at = 0, line = 1, buses = 0, lines = 0;
    long la = 0, lb = 0, unit = 0;
    for (;; line++) {
        size_t f[6], k = 0, e = at;
        f[k++] = at;
        while (e < len && s[e] != '\n') {
            if (s[e] == '\t') {
                if (k == 5)
                    k = 4; /* one field too many for any record */
                f[k++] = e + 1;
            }
            e++;
        }
        if (e == len)
            return line * 100 + 2;
        f[k] = e + 1;
#define FROM(i) f[i]
#define TO(i) (f[(i) + 1] - 1)
        int past = g->n > 0 && buses == g->n;
        if (is(s, FROM(0), TO(0), "grid") && k == 2) {
            long v = number(s, FROM(1), TO(1));
            if (v < 0 || g->n > 0)
                return line * 100 + 2;
            if (v < 1 || v > 64)
                return line * 100 + 3;
            g->n = (size_t)v;
        } else if (is(s, FROM(0), TO(0), "bus") && k == 4) {
            long v = number(s, FROM(1), TO(1));
            int z = is(s, FROM(2), TO(2), "Z"), y = is(s, FROM(3), TO(3), "Y");
            if (v < 0 || !(z || is(s, FROM(2), TO(2), "I")) || !(y || is(s, FROM(3), TO(3), "N")) || buses >= g->n)
                return line * 100 + 2;
            if (v < 1 || (size_t)v > g->n)
                return line * 100 + 3;
            if ((size_t)v != buses + 1)
                return line * 100 + 4;
            g->zero |= (uint64_t)z << (v - 1);
            g->site |= (uint64_t)y << (v - 1);
            buses++;
        } else if (is(s, FROM(0), TO(0), "line") && (k == 3 || k == 4)) {
            long a = number(s, FROM(1), TO(1)), b = number(s, FROM(2), TO(2));
            long circuits = k == 4 ? number(s, FROM(3), TO(3)) : 1;
            if (a < 0 || b < 0 || circuits < 0 || !past || unit > 0)
                return line * 100 + 2;
            if (a < 1 || (size_t)a > g->n || b < 1 || (size_t)b > g->n || lines == 256)
                return line * 100 + 3;
            if (k == 4 && (circuits < 2 || circuits > 8))
                return line * 100 + 3;
            if (a >= b || a < la || (a == la && b <= lb))
                return line * 100 + 4;
            la = a, lb = b, lines++;
            join(g, a, b, circuits);
        } else if (is(s, FROM(0), TO(0), "pmu") && k == 2) {
            long v = number(s, FROM(1), TO(1));
            if (v < 0 || !past)
                return line * 100 + 2;
            if (v < 1 || (size_t)v > g->n)
                return line * 100 + 3;
            if (v <= unit)
                return line * 100 + 4;
            unit = v;
            g->units |= (uint64_t)1 << (v - 1);
        } else if (is(s, FROM(0), TO(0), "end") && k == 1 && past) {
            return e + 1 == len ? 0 : (line + 1) * 100 + 2;
        } else {
            return line * 100 + 2;
        }
        at = e + 1;
    }
}

int main(int argc, char **argv)
{
    static unsigned char text[16384];
    if (argc != 3)
        return 2;
    FILE *f = fopen(argv[1], "rb");
    if (!f)
        return 2;
    size_t len = fread(text, 1, sizeof text, f);
    fclose(f);
    struct grid g;
    unsigned long answer = 0, sum = 0;
    for (long i = atol(argv[2]); i > 0; i--) {
        answer = read_case(text, len, &g);
        sum += answer + g.nbr[i % 64];
        __asm__ volatile("" : : "r"(&g), "r"(text) : "memory");
    }
    printf("%lu\n", answer);
    return sum == 12345;
}
