/* What the tests of the calls share: a number that is expected, and how many were not. */
#include <stdint.h>
#include <stdio.h>

static int faults;

static void expect(const char *name, uint64_t want, uint64_t answer)
{
    if (answer == want)
        return;
    faults++;
    printf("%s: %llu, and not %llu\n", name, (unsigned long long)answer, (unsigned long long)want);
}
