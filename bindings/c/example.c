/* Reads component data from standard input, writes the listing of its map, and
   asks the map for the loss and the nearest point at its middle.
   Status 0: answered; 1: refused; 2: could not read or write. */
#include "axle.h"

#include <inttypes.h>
#include <stdio.h>

/* More bytes than any accepted data has. Of longer data only these first ones are
   handed over: they already decide the answer. */
enum { MOST_DATA = 32768 };

static uint8_t data[MOST_DATA];
static uint32_t entries[AXLE_ENTRIES];
static uint8_t text[AXLE_TEXT];

static int refused(uint32_t refusal, size_t place)
{
    printf("refused %" PRIu32 " at %zu\n", refusal, place);
    return 1;
}

static void write_loss(int64_t loss)
{
    uint64_t size = loss < 0 ? -(uint64_t)loss : (uint64_t)loss;
    printf("%s%" PRIu64 ".%02" PRIu64 " Nm\n", loss < 0 ? "-" : "", size / 100, size % 100);
}

static int write_listing(const axle_built *map)
{
    axle_listing_answer listing = axle_listing(map->speeds, map->speed_count, map->torques, map->torque_count,
                                               entries, AXLE_ENTRIES, text, sizeof text);
    if (listing.refusal != 0)
        return refused(listing.refusal, listing.place);
    return fwrite(text, 1, listing.length, stdout) == listing.length ? 0 : 2;
}

static int write_middle(const axle_built *map)
{
    uint32_t speed = 5 * ((uint32_t)map->speeds[0] + map->speeds[map->speed_count - 1]);
    uint32_t torque = 50 * ((uint32_t)map->torques[0] + map->torques[map->torque_count - 1]);
    axle_loss_answer loss = axle_loss(map->speeds, map->speed_count, map->torques, map->torque_count,
                                      entries, AXLE_ENTRIES, speed, torque);
    if (loss.refusal != 0)
        return refused(loss.refusal, loss.place);
    printf("at %" PRIu32 ".%" PRIu32 " rpm and %" PRIu32 ".%02" PRIu32 " Nm: ", speed / 10, speed % 10, torque / 100, torque % 100);
    write_loss(loss.loss);

    axle_nearest_answer nearest = axle_nearest(map->speeds, map->speed_count, map->torques, map->torque_count, speed, torque);
    if (nearest.refusal != 0)
        return refused(nearest.refusal, nearest.place);
    printf("nearest grid point: %u rpm, %u Nm\n", nearest.speed, nearest.torque);
    return 0;
}

static int run(size_t length)
{
    axle_built map = axle_build(data, length, entries, AXLE_ENTRIES);
    if (map.refusal != 0) {
        if (map.has_index)
            fprintf(stderr, "example: number %zu of its field, counted from 0\n", map.index);
        return refused(map.refusal, map.place);
    }
    int status = write_listing(&map);
    return status != 0 ? status : write_middle(&map);
}

int main(void)
{
    size_t length = fread(data, 1, sizeof data, stdin);
    if (ferror(stdin)) {
        perror("example: cannot read standard input");
        return 2;
    }
    int status = run(length);
    /* The stream also remembers a write that failed earlier. */
    if (fflush(stdout) != 0 || ferror(stdout)) {
        fputs("example: cannot write standard output\n", stderr);
        return 2;
    }
    return status;
}
