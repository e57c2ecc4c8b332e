/* A test of a listing that is loaded, as C sees it: the listing of document 01, as it
   is, with blanks at the ends of its lines, and changed so that it is refused.
   Status 0: all answers are as document 02, C-16, has them; 1: one is not. */
#include "axle.h"
#include "expect.h"

#include <string.h>

enum { ENTRIES = 4, LENT = 6, LENGTH = 76 };

static const char header[] = "speed,torque,loss\n";
static const char listing[] = "speed,torque,loss\n100,0,130.00\n100,1000,150.41\n200,0,130.00\n200,1000,150.41\n";
static const char padded[] = " speed,torque,loss\n100,0,130.00 \n\t100,1000,150.41\t \n200,0,130.00\n\t 200,1000,150.41  \n";

/* The entries of the listing, and what stands past the last before it is loaded. */
static const uint32_t loaded[LENT] = {13000, 15041, 13000, 15041, 7, 7};
static const uint32_t untouched[LENT] = {7, 7, 7, 7, 7, 7};

static uint32_t entries[LENT];
static uint8_t text[AXLE_TEXT];

/* Loads a text with so many of the entries lent. */
static axle_axes_answer load(const char *given, size_t entry_count)
{
    memcpy(entries, untouched, sizeof entries);
    return axle_load((const uint8_t *)given, strlen(given), entries, entry_count);
}

static void expect_refused(const char *given, size_t entry_count, uint32_t refusal, size_t place)
{
    axle_axes_answer map = load(given, entry_count);
    expect("refusal", refusal, map.refusal);
    expect("place", place, map.place);
    expect("how many speeds", 0, map.speed_count);
    expect("how many torques", 0, map.torque_count);
    expect("entries that were changed", 0, memcmp(entries, untouched, sizeof entries) != 0);
}

/* The map that was loaded is listed as document 01 has it, and answers questions. */
static void expect_map(const axle_axes_answer *map)
{
    memset(text, 7, sizeof text);
    axle_listing_answer listed = axle_listing(map->speeds, map->speed_count, map->torques, map->torque_count,
                                              entries, ENTRIES, text, sizeof text);
    expect("refusal of the listing", 0, listed.refusal);
    expect("length", LENGTH, listed.length);
    expect("another listing", 0, memcmp(text, listing, LENGTH) != 0);
    expect("a byte past the listing", 7, text[LENGTH]);
    axle_loss_answer loss = axle_loss(map->speeds, map->speed_count, map->torques, map->torque_count,
                                      entries, ENTRIES, 1000, 50000);
    expect("refusal of the loss", 0, loss.refusal);
    expect("loss", 14021, (uint64_t)loss.loss);
}

static void expect_loaded(const char *given, size_t entry_count)
{
    axle_axes_answer map = load(given, entry_count);
    expect("refusal", 0, map.refusal);
    expect("place", 0, map.place);
    expect("how many speeds", 2, map.speed_count);
    expect("how many torques", 2, map.torque_count);
    expect("the first speed", 100, map.speeds[0]);
    expect("the second speed", 200, map.speeds[1]);
    expect("the first torque", 0, map.torques[0]);
    expect("the second torque", 1000, map.torques[1]);
    expect("other entries", 0, memcmp(entries, loaded, sizeof entries) != 0);
    expect_map(&map);
}

/* Expects the listing with other rows from the third line on to be refused. */
static void expect_rows_refused(const char *rows, uint32_t refusal, size_t place)
{
    char given[2 * LENGTH];
    snprintf(given, sizeof given, "%s100,0,130.00\n%s", header, rows);
    expect_refused(given, LENT, refusal, place);
}

int main(void)
{
    expect_loaded(listing, ENTRIES);
    expect_loaded(listing, LENT);
    expect_loaded(padded, ENTRIES);
    expect_loaded(padded, LENT);
    expect_refused(listing, 0, 11, ENTRIES);
    expect_refused(listing, 3, 11, ENTRIES);
    expect_refused(padded, 3, 11, ENTRIES);
    /* No header, and no line feed behind it. */
    expect_refused("", LENT, 40, 0);
    expect_refused("speed,torque,loss", LENT, 40, 0);
    expect_refused("speed,torque,loss\r\n", LENT, 40, 0);
    expect_refused(listing + sizeof header - 1, LENT, 40, 0);
    /* A leading zero, a line without its line feed, an empty line. */
    expect_rows_refused("100,01000,150.41\n", 41, 31);
    expect_rows_refused("100,1000,150.41", 41, 31);
    expect_rows_refused(" \t\n", 41, 31);
    /* Another torque, then another speed, than the run has; the offset is that of the blank. */
    expect_rows_refused("100,1000,150.41\n200,1,130.00\n", 42, 47);
    expect_rows_refused("100,1000,150.41\n200,0,130.00\n 201,1000,150.41\n", 42, 60);
    /* No rows, one run alone, and a last run that is short: the text's length. */
    expect_refused(header, LENT, 42, 18);
    expect_rows_refused("100,1000,150.41\n", 42, 47);
    expect_rows_refused("100,1000,150.41\n100,0,130.00\n100,1000,150.41\n", 42, LENGTH);
    expect_rows_refused("100,1000,150.41\n200,0,130.00\n", 42, 60);
    /* Numbers of no map. */
    expect_rows_refused("100,1000,150.41\n3001,0,130.00\n3001,1000,150.41\n", 4, 0);
    expect_rows_refused("100,1000,150.41\n99,0,130.00\n99,1000,150.41\n", 5, 0);
    expect_refused("speed,torque,loss\n1,11,0.00\n1,21,0.00\n2,11,0.00\n2,21,100000.01\n", LENT, 6, 0);
    expect_refused("speed,torque,loss\n1,10,0.00\n1,20,0.00\n2,10,0.00\n2,20,100000.01\n", 0, 10, 0);
    expect_refused("speed,torque,loss\n1,10,0.00\n1,20,0.00\n2,10,0.00\n2,20,100000.00\n", 0, 11, ENTRIES);
    printf("%d faults\n", faults);
    return faults != 0;
}
