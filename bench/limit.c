/* limit.c: what any replay has to do, and no more: it reads a session, looks at each record's kind and at the bytes behind
 * its data, which must be zero, and writes as many bytes as a register has: 26 a record, and 10 at the end. Nothing is
 * played. What a replay takes beyond this is the card's. It uses no more of the C library than second.c does. */
#include <string.h>
#include <unistd.h>

enum { CHIP = 40, RECORD = 260, LINE = 26, LAST = 10, AT_ONCE = 252, LINES = 2520 };

static unsigned char input[AT_ONCE * RECORD], output[LINES * LINE + LAST];

/* How many bytes came before the end of the input. */
static unsigned read_full(unsigned char *to, unsigned n)
{
    unsigned have = 0;
    while (have < n) {
        long got = (long)read(0, to + have, n - have);
        if (got <= 0)
            break;
        have += (unsigned)got;
    }
    return have;
}

static int write_full(unsigned n)
{
    unsigned done = 0;
    while (done < n) {
        long got = (long)write(1, output + done, n - done);
        if (got <= 0)
            return 0;
        done += (unsigned)got;
    }
    return 1;
}

/* 32 bytes at a time, the last 32 from the end. */
static int all_zero(const unsigned char *p, unsigned n)
{
    unsigned long long now[4], seen[4] = { 0 };
    unsigned i, k;
    if (n < 32) {
        for (; n > 0; n--)
            seen[0] |= *p++;
        return seen[0] == 0;
    }
    for (i = 0; i < n; i += 32) {
        memcpy(now, p + (i + 32 <= n ? i : n - 32), 32);
        for (k = 0; k < 4; k++)
            seen[k] |= now[k];
    }
    return (seen[0] | seen[1] | seen[2] | seen[3]) == 0;
}

/* The digit of the refusal's number, as in a register's line. */
static char form(const unsigned char *r)
{
    if (r[0] < 1 || r[0] > 8)
        return '4';
    return all_zero(r + 4 + r[3], RECORD - 4u - r[3]) ? '0' : '5';
}

int main(void)
{
    unsigned i, count, lines = 0;
    if (read_full(input, CHIP) == CHIP)
        while ((count = read_full(input, sizeof input) / RECORD) > 0) {
            if (lines + count > LINES) {
                if (!write_full(lines * LINE))
                    return 1;
                lines = 0;
            }
            for (i = 0; i < count; i++, lines++) {
                memcpy(output + lines * LINE, "00000 02 00 9000 07 5A 01\n", LINE);
                output[lines * LINE + 10] = (unsigned char)form(input + i * RECORD);
            }
        }
    memcpy(output + lines * LINE, "END 00000\n", LAST);
    return write_full(lines * LINE + LAST) ? 0 : 1;
}
