// Compares pages by memcmp, as a scrub compares those of replicas: compare PAGES REPLICAS ROUNDS prints the nanoseconds of a
// round, in which every replica's pages, each a block of its own that is found through a table, are compared with the first's.
#include <stdio.h>
#include <stdlib.h>
#include <string.h>
#include <time.h>

enum { PAGE = 4096 };

static double seconds(void)
{
    struct timespec now;
    clock_gettime(CLOCK_PROCESS_CPUTIME_ID, &now);
    return now.tv_sec + now.tv_nsec / 1e9;
}

int main(int count, char **words)
{
    if (count != 4)
        return 2;
    long pages = atol(words[1]), replicas = atol(words[2]), rounds = atol(words[3]);
    unsigned char ***replica = malloc(replicas * sizeof *replica);
    for (long r = 0; r < replicas; r++) {
        replica[r] = malloc(pages * sizeof *replica[r]);
        for (long p = 0; p < pages; p++)
            memset(replica[r][p] = malloc(PAGE), (int)p, PAGE);
    }
    long unequal = 0;
    double begin = seconds();
    for (long round = 0; round < rounds; round++)
        for (long r = 1; r < replicas; r++)
            for (long p = 0; p < pages; p++)
                unequal += memcmp(replica[0][p], replica[r][p], PAGE) != 0;
    printf("%.1f\n", (seconds() - begin) / rounds * 1e9);
    return unequal != 0;
}
