/* A test of the drag of a retarder, as C sees it: drags that are reckoned by hand, and
   each refusal at its limits and one beyond (45, 46, 47).
   Status 0: all answers are as document 02, C-17, has them; 1: one is not. */
#include "axle.h"
#include "expect.h"

enum { POINTS = 13, RATIO = 1000 };

/* The points in tenths of rpm: drive speeds at the ratio 1.000. */
static const uint32_t points[POINTS] = {2000, 4000, 6000, 9000, 12000, 16000, 20000, 25000, 30000, 35000, 40000, 45000, 50000};

static const uint32_t rising[2] = {1000, 1500};
static const uint32_t falling[2] = {1500, 1000};
static const uint32_t bearing_losses[2] = {100, 200};
static const uint32_t none[POINTS + 1];
static const uint32_t ones[POINTS + 1] = {1, 1, 1, 1, 1, 1, 1, 1, 1, 1, 1, 1, 1, 1};

/* Readings at all points, with a bearing loss of 1 at each: falling, rising and level. */
static const uint32_t readings_of_all[POINTS] = {1001, 1, 101, 51, 51, 3001, 2, 12, 11, 511, 10000001, 1, 6};

static const uint32_t widest[2] = {UINT32_MAX, UINT32_MAX};
static const uint32_t widest_less[2] = {UINT32_MAX - 10000000, UINT32_MAX};
static const uint32_t widest_less_one[2] = {UINT32_MAX - 10000001, UINT32_MAX};

static void expect_answer(axle_drag_answer answer, uint32_t refusal, uint32_t drag)
{
    expect("refusal", refusal, answer.refusal);
    expect("place", 0, answer.place);
    expect("drag", drag, answer.drag);
}

static void expect_drag(const uint32_t *readings, const uint32_t *losses, size_t count, uint32_t ratio, uint32_t speed, uint32_t drag)
{
    expect_answer(axle_retarder_drag(readings, count, losses, count, ratio, speed), 0, drag);
}

static void expect_refused(const uint32_t *readings, size_t reading_count, const uint32_t *losses, size_t loss_count, uint32_t ratio, uint32_t speed, uint32_t refusal)
{
    expect_answer(axle_retarder_drag(readings, reading_count, losses, loss_count, ratio, speed), refusal, 0);
}

/* Drags of 9.00 Nm at 200 rpm and 13.00 Nm at 400 rpm, and 15.00 and 10.00 Nm. */
static void two_points(void)
{
    expect_drag(rising, bearing_losses, 2, 1500, 2000, 1100);
    /* At 266.6 rpm: 5166 / 5. */
    expect_drag(rising, bearing_losses, 2, 1333, 2000, 1034);
    expect_drag(rising, bearing_losses, 2, RATIO, 2000, 900);
    expect_drag(rising, bearing_losses, 2, RATIO, 4000, 1300);
    /* At 300.1 rpm: 4999 / 4. */
    expect_drag(falling, none, 2, RATIO, 3001, 1250);
    expect_drag(falling, none, 2, RATIO, 2000, 1500);
    expect_drag(falling, none, 2, RATIO, 4000, 1000);
}

/* At each of the first 2 to 13 points the drag is the point's, and the last ends the table. */
static void all_points(void)
{
    for (size_t count = 2; count <= POINTS; count++) {
        for (size_t point = 0; point < count; point++)
            expect_drag(readings_of_all, ones, count, RATIO, points[point], readings_of_all[point] - 1);
        expect_refused(readings_of_all, count, ones, count, RATIO, points[0] - 1, 47);
        expect_refused(readings_of_all, count, ones, count, RATIO, points[count - 1] + 1, 47);
    }
    /* At 3,750 and at 4,999.9 rpm: half of the way from 510 to 10,000,000, and 5 less 5 / 5,000. */
    expect_drag(readings_of_all, ones, POINTS, RATIO, 37500, 5000255);
    expect_drag(readings_of_all, ones, POINTS, RATIO, 49999, 5);
}

static void limits(void)
{
    expect_drag(rising, bearing_losses, 2, 100, 20000, 900);
    expect_drag(rising, bearing_losses, 2, 10000, 200, 900);
    expect_refused(rising, 2, bearing_losses, 2, 99, 30000, 45);
    expect_refused(rising, 2, bearing_losses, 2, 10001, 300, 45);
    expect_refused(rising, 2, bearing_losses, 2, 0, 3000, 45);
    expect_refused(rising, 2, bearing_losses, 2, UINT32_MAX, 3000, 45);
    expect_refused(ones, 1, none, 1, RATIO, 2000, 45);
    expect_refused(ones, POINTS + 1, none, POINTS + 1, RATIO, 2000, 45);
    expect_refused(ones, 2, none, 1, RATIO, 2000, 45);
    expect_refused(ones, 2, none, 3, RATIO, 2000, 45);
    /* Empty lists, whose pointers are not null. */
    expect_refused(ones, 0, none, 0, RATIO, 2000, 45);
    expect_refused(ones, 2, none, 0, RATIO, 2000, 45);
    expect_refused(ones, 0, none, 2, RATIO, 2000, 45);
    /* At 199.9998, 199.9999, 400.1 and 5,000.0001 rpm. */
    expect_refused(rising, 2, bearing_losses, 2, 999, 2002, 47);
    expect_refused(rising, 2, bearing_losses, 2, 1207, 1657, 47);
    expect_refused(rising, 2, bearing_losses, 2, RATIO, 4001, 47);
    expect_refused(readings_of_all, POINTS, ones, POINTS, 739, 67659, 47);
    expect_refused(rising, 2, bearing_losses, 2, RATIO, 0, 47);
}

static void out_of_range(void)
{
    const uint32_t first[2] = {10, 10}, second[2] = {11, 10};
    expect_drag(first, first, 2, RATIO, 3000, 0);
    expect_refused(first, 2, second, 2, 100, 20000, 46);
    /* A reading that the answer does not need, and before 47; 45 is before 46. */
    expect_refused(first, 2, second, 2, RATIO, 4000, 46);
    expect_refused(first, 2, second, 2, 100, 0, 46);
    expect_refused(first, 2, second, 2, 99, 0, 45);
    const uint32_t largest[2] = {10000001, 10000000}, beyond[2] = {10000000, 10000001};
    const uint32_t one[2] = {1, 0};
    expect_drag(largest, one, 2, RATIO, 2000, 10000000);
    expect_drag(largest, one, 2, RATIO, 3333, 10000000);
    expect_refused(beyond, 2, none, 2, RATIO, 2000, 46);
}

static void widest_numbers(void)
{
    expect_drag(widest, widest, 2, RATIO, 3000, 0);
    /* From 10,000,000 to 0: at 266.6 rpm 0.667 of it, at 399.9999 rpm 1 / 2,000,000 of it. */
    expect_drag(widest, widest_less, 2, RATIO, 2000, 10000000);
    expect_drag(widest, widest_less, 2, 1333, 2000, 6670000);
    expect_drag(widest, widest_less, 2, 667, 5997, 5);
    expect_refused(widest, 2, widest_less_one, 2, RATIO, 4000, 46);
    expect_refused(rising, 2, bearing_losses, 2, 10000, UINT32_MAX, 47);
    /* A product that would be 200.2704 rpm in 32 bits. */
    expect_refused(rising, 2, bearing_losses, 2, 10000, 429697, 47);
    expect_refused(rising, 2, widest, 2, 10000, UINT32_MAX, 46);
    expect_refused(rising, 2, widest, 2, UINT32_MAX, UINT32_MAX, 45);
}

int main(void)
{
    two_points();
    all_points();
    limits();
    out_of_range();
    widest_numbers();
    printf("%d faults\n", faults);
    return faults != 0;
}
