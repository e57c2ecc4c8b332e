/* A test of the two fields `has_index` and `index`, as C sees them: data of kind 3
   and its numbers with a ratio, and with each number of each sensor, that no range
   reaches. Reads examples/half-shafts.axle from standard input.
   Status 0: all answers are as document 02, C-14, has them; 1: one is not; 2: the
   example could not be read. */
#include "axle.h"

#include <stdio.h>
#include <string.h>

enum { LENGTH = 141, KIND = 3, RATIO = 11, SENSORS = 3, SENSOR_NUMBERS = 9 };

/* Where the bodies of the sensors' fields begin. */
static const size_t bodies[SENSORS] = {30, 51, 72};

static uint8_t example[LENGTH];
static uint32_t entries[AXLE_ENTRIES];
static uint8_t file[AXLE_FILE];

static axle_numbers numbers = {
    .kind = 3,
    .line = 1,
    .ratio = 3000,
    .speeds = {100, 200},
    .speed_count = 2,
    .torques = {1000, 3000},
    .torque_count = 2,
    .input = {10000, 0, 0, 100, 1000, 0, 0, 0, 10},
    .output = {30000, 0, 0, 100, 1000, 0, 0, 0, 10},
    .right = {15000, 0, 0, 100, 1000, 0, 0, 0, 10},
};

static const uint32_t rows[12] = {34000, 60000, 40000, 102000, 200000, 100000, 34500, 35000, 65200, 110000, 120000, 180000};

/* What a call must answer: place is where the number stands, 0 for numbers. */
typedef struct {
    uint32_t refusal;
    size_t place;
    uint32_t has_index;
    size_t index;
} expected;

static int faults;

static void expect(const char *call, expected want, expected answer)
{
    if (answer.refusal == want.refusal && answer.place == want.place && answer.has_index == want.has_index && answer.index == want.index)
        return;
    faults++;
    printf("%s: refused %u at %zu, index %u %zu, and not %u at %zu, index %u %zu\n", call,
           (unsigned)answer.refusal, answer.place, (unsigned)answer.has_index, answer.index,
           (unsigned)want.refusal, want.place, (unsigned)want.has_index, want.index);
}

/* What stands behind the index. */
static void expect_value(const char *name, size_t want, size_t answer)
{
    if (answer == want)
        return;
    faults++;
    printf("%s: %zu, and not %zu\n", name, answer, want);
}

/* Builds the example with 65,535 at a place, or as it is at place 0. */
static void expect_build(size_t place, expected want)
{
    uint8_t data[LENGTH];
    memcpy(data, example, sizeof data);
    if (place != 0)
        memset(data + place, 0xFF, 2);
    axle_built built = axle_build(data, sizeof data, entries, AXLE_ENTRIES);
    expect("axle_build", want, (expected){built.refusal, built.place, built.has_index, built.index});
    expect_value("how many speeds", want.refusal == 0 ? 2 : 0, built.speed_count);
    expect_value("how many torques", want.refusal == 0 ? 2 : 0, built.torque_count);
    if (want.refusal == 0) {
        expect_value("the second speed", 200, built.speeds[1]);
        expect_value("the second torque", 3000, built.torques[1]);
    }
}

static void expect_write(expected want)
{
    axle_write_answer written = axle_write(numbers, rows, 12, file, sizeof file);
    expect("axle_write", want, (expected){written.refusal, written.place, written.has_index, written.index});
    expect_value("a length", want.refusal == 0 ? LENGTH : 0, written.length);
}

int main(void)
{
    if (fread(example, 1, sizeof example, stdin) != sizeof example)
        return 2;
    uint16_t *sensors[SENSORS] = {numbers.input, numbers.output, numbers.right};
    expect_build(0, (expected){0, 0, 0, 0});
    expect_write((expected){0, 0, 0, 0});
    /* Kind 255 is refused with 4, which has no index. */
    expect_build(KIND, (expected){4, KIND, 0, 0});
    expect_build(RATIO, (expected){31, RATIO, 1, 0});
    for (size_t sensor = 0; sensor < SENSORS; sensor++)
        for (size_t index = 0; index < SENSOR_NUMBERS; index++) {
            size_t place = bodies[sensor] + 2 * index;
            uint16_t before = sensors[sensor][index];
            expect_build(place, (expected){32, place, 1, index});
            sensors[sensor][index] = 65535;
            expect_write((expected){32, 0, 1, index});
            sensors[sensor][index] = before;
        }
    numbers.ratio = 20001;
    expect_write((expected){31, 0, 1, 0});
    /* A line that there is not is 4, which has no index, and comes before the ratio. */
    numbers.line = 6;
    expect_write((expected){4, 0, 0, 0});
    printf("%d faults\n", faults);
    return faults != 0;
}
