/* A test of the steps of a sensor's uncertainty, as C sees them: of sensors that are
   reckoned by hand, at torques above the nominal torque (7), and with each number in
   turn beyond every range (32).
   Status 0: all answers are as document 02, C-15, has them; 1: one is not. */
#include "axle.h"
#include "expect.h"

#include <string.h>

enum { SENSOR_NUMBERS = 9, STEPS = 5 };

static const uint16_t small[SENSOR_NUMBERS] = {1000, 100, 50, 200, 2000, 30, 100, 200, 50};

/* With the least advancement and the shortest span, which make the parts largest. */
static const uint16_t highest[SENSOR_NUMBERS] = {50000, 10000, 10000, 10000, 1000, 10000, 1000, 500, 10};

/* What a refused call has as steps. */
static const uint64_t none[STEPS];

static void expect_steps(axle_steps_answer answer, const uint64_t steps[STEPS])
{
    expect("a", steps[0], answer.temperature_on_sensitivity);
    expect("b", steps[1], answer.temperature_on_zero);
    expect("g", steps[2], answer.calibration);
    expect("h", steps[3], answer.parasitic_loads);
    expect("U", steps[4], answer.uncertainty);
}

static void expect_answered(const uint16_t sensor[SENSOR_NUMBERS], uint32_t torque, const uint64_t steps[STEPS])
{
    axle_steps_answer answer = axle_steps(sensor, torque);
    expect("refusal", 0, answer.refusal);
    expect("place", 0, answer.place);
    expect("has_index", 0, answer.has_index);
    expect("index", 0, answer.index);
    expect_steps(answer, steps);
}

static void expect_refused(const uint16_t sensor[SENSOR_NUMBERS], uint32_t torque, uint32_t refusal, uint32_t has_index, size_t index)
{
    axle_steps_answer answer = axle_steps(sensor, torque);
    expect("refusal", refusal, answer.refusal);
    expect("place", 0, answer.place);
    expect("has_index", has_index, answer.has_index);
    expect("index", index, answer.index);
    expect_steps(answer, none);
}

int main(void)
{
    expect_answered(small, 50000, (uint64_t[]){200, 200, 1000, 30, 2027});
    expect_answered(small, 100000, (uint64_t[]){400, 200, 1000, 30, 2066});
    expect_answered(highest, 5000000, (uint64_t[]){25000000, 25000000, 5000000, 5000000, 42426407});
    expect_refused(small, 100001, 7, 0, 0);
    expect_refused(highest, 5000001, 7, 0, 0);
    expect_refused(highest, UINT32_MAX, 7, 0, 0);
    for (size_t index = 0; index < SENSOR_NUMBERS; index++) {
        uint16_t wrong[SENSOR_NUMBERS];
        memcpy(wrong, small, sizeof wrong);
        wrong[index] = 65535;
        expect_refused(wrong, 0, 32, 1, index);
        expect_refused(wrong, UINT32_MAX, 32, 1, index);
    }
    printf("%d faults\n", faults);
    return faults != 0;
}
