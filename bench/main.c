/* Times the proved SHA-256 and the plain one on the same 64 MiB, turn by turn, and compares their best times. */
#include <stdio.h>
#include <stdlib.h>
#include <string.h>
#include <time.h>

void plain_sha256(const unsigned char *message, size_t n, unsigned char out[32]);
/* A slice of the proved library is passed as a pointer and a length. */
void proved_sha256(const unsigned char *message, size_t n, unsigned char *out, size_t out_len);

static double seconds(void)
{
    struct timespec t;
    clock_gettime(CLOCK_MONOTONIC, &t);
    return t.tv_sec + t.tv_nsec * 1e-9;
}

int main(int argc, char **argv)
{
    enum { MIB = 64, TURNS = 11 };
    size_t n = (size_t)MIB << 20, i;
    unsigned char *message = malloc(n), plain[32], proved[32];
    double best_plain = 1e9, best_proved = 1e9;
    int turn;

    if (!message)
        return 1;
    for (i = 0; i < n; i++)
        message[i] = (unsigned char)(i * 2654435761u >> 13);
    for (turn = 0; turn < TURNS; turn++) {
        double start = seconds(), middle, end;
        plain_sha256(message, n, plain);
        middle = seconds();
        proved_sha256(message, n, proved, sizeof proved);
        end = seconds();
        if (memcmp(plain, proved, sizeof plain) != 0) {
            puts("the digests differ");
            return 1;
        }
        if (middle - start < best_plain)
            best_plain = middle - start;
        if (end - middle < best_proved)
            best_proved = end - middle;
    }
    printf("SHA-256 of %d MiB: proved %.0f MiB/s, C by %s %.0f MiB/s, ratio %.2f\n", MIB, MIB / best_proved,
           argc > 1 ? argv[1] : "cc", MIB / best_plain, best_plain / best_proved);
    return 0;
}
