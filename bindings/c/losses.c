/* A test of the losses at many points, as C sees them: the worked cases of document 01,
   each refusal (22, 11, 20, 21) with its point and in its order, what a refusal and a
   call leave, and many points of the largest grid, each held to axle_loss.
   Status 0: all answers are right; 1: one is not. */
#include "axle.h"
#include "expect.h"

enum { ENTRIES = 4, LENT = 8, UNTOUCHED = 7, LARGEST_ENTRY = 10000000 };

typedef struct {
    uint16_t speeds[AXLE_SPEEDS];
    size_t speed_count;
    uint16_t torques[AXLE_TORQUES];
    size_t torque_count;
    uint32_t entries[ENTRIES];
    size_t entry_count;
} map;

/* The listing of document 01. */
static const map standard = {{100, 200}, 2, {0, 1000}, 2, {13000, 15041, 13000, 15041}, ENTRIES};

/* SR, ratio 3.000, with torques of 1,000 and 2,000 Nm. */
static const map later = {{100, 200}, 2, {1000, 2000}, 2, {15041, 17082, 15041, 17082}, ENTRIES};

/* examples/measured.axle: below 1,000 Nm its losses fall by 13.65 hundredths a Nm. */
static const map measured = {{100, 200}, 2, {1000, 3000}, 2, {2700, 30000, 2700, 30000}, ENTRIES};

static const axle_point inside = {1000, 50000}, below = {999, 0}, beyond = {2001, 0}, above = {2000, 100001};
static const axle_point outside_both = {2001, 100001};

/* What was lent for the losses. */
static int64_t losses[LENT];

static axle_losses_answer ask(const map *asked, const axle_point *points, size_t point_count, size_t loss_count)
{
    for (size_t place = 0; place < LENT; place++)
        losses[place] = UNTOUCHED;
    return axle_losses(asked->speeds, asked->speed_count, asked->torques, asked->torque_count,
                       asked->entries, asked->entry_count, points, point_count, losses, loss_count);
}

static void expect_untouched(size_t from)
{
    for (size_t place = from; place < LENT; place++)
        expect("a loss that was to be left", UNTOUCHED, (uint64_t)losses[place]);
}

static void expect_answer(axle_losses_answer answer, uint32_t refusal, size_t place, uint32_t has_point, size_t point)
{
    expect("refusal", refusal, answer.refusal);
    expect("place", place, answer.place);
    expect("has_point", has_point, answer.has_point);
    expect("point", point, answer.point);
}

static void expect_losses(const map *asked, const axle_point *points, const int64_t *due, size_t count)
{
    for (size_t loss_count = count; loss_count <= LENT; loss_count++) {
        expect_answer(ask(asked, points, count, loss_count), 0, 0, 0, 0);
        for (size_t point = 0; point < count; point++)
            expect("loss", (uint64_t)due[point], (uint64_t)losses[point]);
        expect_untouched(count);
    }
}

static void expect_refused(const map *asked, const axle_point *points, size_t point_count, size_t loss_count, uint32_t refusal, size_t place)
{
    expect_answer(ask(asked, points, point_count, loss_count), refusal, place, 0, 0);
    expect_untouched(0);
}

static void expect_point_refused(const axle_point *points, size_t point_count, uint32_t refusal, size_t point)
{
    expect_answer(ask(&standard, points, point_count, LENT), refusal, 0, 1, point);
    expect_untouched(0);
}

static void worked_cases(void)
{
    const axle_point points[6] = {{1000, 50000}, {2000, 100000}, {1000, 0}, {1505, 50000}, {1000, 50000}, {2000, 0}};
    expect_losses(&standard, points, (int64_t[]){14021, 15041, 13000, 14021, 14021, 13000}, 6);
    expect_losses(&later, points, (int64_t[]){14021, 15041, 13000, 14021, 14021, 13000}, 6);
    /* Under zero: 27.00 - 136.50 = -109.50 Nm; -13.62 and -0.1065 hundredths, rounded up. */
    const axle_point low[5] = {{1500, 0}, {1500, 80120}, {1500, 80219}, {1500, 100000}, {1500, 200000}};
    expect_losses(&measured, low, (int64_t[]){-10950, -13, 0, 2700, 16350}, 5);
}

static void no_points(void)
{
    expect_losses(&standard, &inside, NULL, 0);
    map other = standard;
    other.entry_count = ENTRIES - 1;
    expect_refused(&other, &inside, 0, LENT, 22, 0);
}

static void no_map(void)
{
    const axle_point wrong[2] = {below, above};
    map other = standard;
    other.entries[3] = LARGEST_ENTRY;
    expect_losses(&other, &below, NULL, 0);
    other.entries[3] = LARGEST_ENTRY + 1;
    /* Before 11, and before 20 and 21. */
    expect_refused(&other, &inside, 1, LENT, 22, 0);
    expect_refused(&other, wrong, 2, 1, 22, 0);
    const size_t counts[4] = {0, 1, AXLE_SPEEDS + 1, SIZE_MAX};
    for (size_t count = 0; count < 4; count++) {
        other = standard;
        other.speed_count = counts[count];
        expect_refused(&other, wrong, 2, 0, 22, 0);
    }
    other = standard;
    other.torques[0] = 501;
    expect_refused(&other, &inside, 1, LENT, 22, 0);
}

static void room(void)
{
    const axle_point points[5] = {inside, inside, inside, inside, inside};
    const axle_point wrong[5] = {below, above, below, above, outside_both};
    for (size_t point_count = 1; point_count <= 5; point_count++)
        for (size_t loss_count = 0; loss_count < point_count; loss_count++) {
            expect_refused(&standard, points, point_count, loss_count, 11, point_count);
            expect_refused(&standard, wrong, point_count, loss_count, 11, point_count);
        }
}

static void outside(void)
{
    for (size_t point = 0; point < 5; point++) {
        axle_point points[5] = {inside, inside, inside, inside, inside};
        points[point] = below;
        expect_point_refused(points, 5, 20, point);
        points[point] = beyond;
        expect_point_refused(points, 5, 20, point);
        points[point] = above;
        expect_point_refused(points, 5, 21, point);
        /* The first of several is told, and 20 of a point that is outside both axes. */
        for (size_t later_point = point + 1; later_point < 5; later_point++)
            points[later_point] = below;
        expect_point_refused(points, 5, 21, point);
        points[point] = outside_both;
        expect_point_refused(points, 5, 20, point);
        points[point] = (axle_point){UINT32_MAX, UINT32_MAX};
        expect_point_refused(points, 5, 20, point);
        points[point] = (axle_point){1000, UINT32_MAX};
        expect_point_refused(points, 5, 21, point);
    }
}

enum { MANY = 4096 };

static axle_point many_points[MANY];
static int64_t many_losses[MANY];
static uint32_t largest[AXLE_ENTRIES];

/* Speeds of 90 to 3,000 rpm and torques of 700 to 44,800 Nm, each entry another. */
static void largest_grid(void)
{
    uint16_t speeds[AXLE_SPEEDS], torques[AXLE_TORQUES];
    for (uint16_t speed = 0; speed < AXLE_SPEEDS; speed++)
        speeds[speed] = (uint16_t)(90 * (speed + 1) + (speed == AXLE_SPEEDS - 1 ? 120 : 0));
    for (uint16_t torque = 0; torque < AXLE_TORQUES; torque++)
        torques[torque] = (uint16_t)(700 * (torque + 1));
    for (size_t entry = 0; entry < AXLE_ENTRIES; entry++)
        largest[entry] = (uint32_t)(entry * 7919 % (LARGEST_ENTRY + 1));
    /* Speeds of 90.0 to 3,000.0 rpm, and torques of 0.00 to 44,800.00 Nm, below the first one too. */
    for (uint32_t point = 0; point < MANY; point++)
        many_points[point] = (axle_point){900 + point * 7919 % 29101, point * 104729 % 4480001};
    expect_answer(axle_losses(speeds, AXLE_SPEEDS, torques, AXLE_TORQUES, largest, AXLE_ENTRIES,
                              many_points, MANY, many_losses, MANY), 0, 0, 0, 0);
    for (size_t point = 0; point < MANY; point++) {
        axle_loss_answer single = axle_loss(speeds, AXLE_SPEEDS, torques, AXLE_TORQUES, largest, AXLE_ENTRIES,
                                            many_points[point].speed, many_points[point].torque);
        expect("refusal of one point", 0, single.refusal);
        expect("loss of one point", (uint64_t)single.loss, (uint64_t)many_losses[point]);
    }
}

int main(void)
{
    worked_cases();
    no_points();
    no_map();
    room();
    outside();
    largest_grid();
    printf("%d faults\n", faults);
    return faults != 0;
}
