/* setlist in plain C, for a comparison of time: cc -O3 bench/setlist_plain.c bench/plain.c */
#include <stddef.h>
#include <stdint.h>
#include <unistd.h>

uint64_t plain_listing(const uint8_t *log, size_t log_len, uint8_t *out, size_t out_len);

int main(void)
{
    static uint8_t log[65537], out[6 * 65536 + 64];
    size_t used = 0;
    while (used < sizeof log) {
        ssize_t got = read(0, log + used, sizeof log - used);
        if (got < 0)
            return 1;
        if (got == 0)
            break;
        used += (size_t)got;
    }
    size_t count = (size_t)plain_listing(log, used, out, sizeof out);
    for (size_t done = 0; done < count;) {
        ssize_t put = write(1, out + done, count - done);
        if (put < 0)
            return 1;
        done += (size_t)put;
    }
    return 0;
}
