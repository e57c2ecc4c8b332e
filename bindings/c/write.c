/* Makes a file of component data from the numbers of a bench and writes it to
   standard output: measured data with two speeds and two torques.
   Status 0: written; 1: refused; 2: could not write. */
#include "axle.h"

#include <inttypes.h>
#include <stdio.h>

/* Ratio 3.000, a sensor of 10,000 Nm at the input and one of 40,000 Nm at the
   output. */
static const axle_numbers numbers = {
    .kind = 2,
    .line = 1,
    .ratio = 3000,
    .speeds = {100, 200},
    .speed_count = 2,
    .torques = {1000, 3000},
    .torque_count = 2,
    .input = {10000, 0, 0, 100, 1000, 0, 0, 0, 10},
    .output = {40000, 0, 0, 100, 1000, 0, 0, 0, 10},
};

/* Input and output torque of each point, in hundredths of Nm. */
static const uint32_t rows[] = {
    34000,  100000, /* 100 rpm, 1000 Nm */
    110000, 300000, /* 100 rpm, 3000 Nm */
    34000,  100000, /* 200 rpm, 1000 Nm */
    110000, 300000, /* 200 rpm, 3000 Nm */
};

static uint8_t file[AXLE_FILE];

int main(void)
{
    axle_write_answer answer = axle_write(numbers, rows, sizeof rows / sizeof rows[0], file, sizeof file);
    if (answer.refusal != 0) {
        fprintf(stderr, "write: refused %" PRIu32 " at %zu", answer.refusal, answer.place);
        if (answer.has_index)
            fprintf(stderr, ", number %zu of its field, counted from 0", answer.index);
        fputs("\n", stderr);
        return 1;
    }
    if (fwrite(file, 1, answer.length, stdout) != answer.length || fflush(stdout) != 0) {
        fputs("write: cannot write standard output\n", stderr);
        return 2;
    }
    return 0;
}
