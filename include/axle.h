/* Axle loss maps: the library for C, libaxle.a (x86-64-v2).

   Link with: gcc -Iinclude program.c target/staticlib/libaxle.a
   `tools/static-library axle` proves the library and writes it. x86-64-v2 are the
   processors with SSE4.2 and POPCNT: of Intel from about 2009 on, of AMD from 2011.

   Units. On an axis a speed is in whole rpm and a torque in whole Nm, both at
   the wheel. Entries, losses and measured torques: hundredths of Nm. A question's
   speed: tenths of rpm; its torque: hundredths of Nm. Uncertainties: grains, of
   which 100 make a hundredth of Nm. Of a retarder, readings, bearing losses and drag:
   hundredths of Nm; its step-up ratio: thousandths; the speed of its drive: tenths of
   rpm.

   Component data says its kind: 1 standard, 2 measured with one sensor at the
   output, 3 measured with one on each half-shaft, left and right, whose torques
   together are the output torque. Every call that takes component data or its map
   takes all three alike. No accepted data is longer than 24,853 bytes.
   docs/FORMAT.md has each kind byte by byte.

   Answers. `refusal` is 0 where the call is answered, else the number of the refusal
   (below), and `place` its place. Of a build, of a write and of the steps of a
   sensor, `has_index` is 1 where the refusal also says which number of its field it
   was, and `index` is that number, from 0; else both are 0. Test `has_index`: index
   0 is the first number of a field. Of the losses at many points, `has_point` is 1
   where the refusal is of a point (20, 21), and `point` says which, from 0; else both
   are 0. Test `has_point` likewise. Values stand apart from them, and a loss may be
   negative: test `refusal`, not the value. The values of a refused answer are 0; the
   axes of a refused build or load have the counts 0, and their numbers mean nothing.

   Since request C-14 axle_built and axle_write_answer have these two fields, and
   so another layout: programs that use them are compiled again with this header.

   Every function accepts every value that its arguments' types have: nothing
   needs to be tested before a call. What a caller owes is memory: each pointer
   is valid for the count beside it, an array with a fixed size in a prototype
   has all its places, a pointer is not null even where its count is 0, and what
   is written to overlaps nothing else that is lent. The caller owns every
   buffer; the library keeps no pointer after a call, allocates nothing, and has
   no state, so calls may run at the same time.

   Refusals, by number, with their place. Numbers that axle_write or axle_steps
   refuses stand at no offset: their 3 to 10, 31 and 32 have place 0. So have the
   4, 5, 6 and 10 of axle_load, which tests each over the whole map, and all of
   axle_retarder_drag.
     1 a head or a body that the end of the data cuts off; 2 another tag than the
       one due, or data that ends before the field; 3 a length that the field
       cannot have (of axle_write: a count of axis numbers or of row torques that
       there cannot be): the head's offset
     4 a kind, a line or an axis number that is not in its range; 5 an axis number
       that does not rise; 6 a first torque above the step to the second; 7 a
       measured torque (input, output; of kind 3 input, left, right) above its
       sensor's nominal torque; 8 an output torque more than 5.00 Nm off its axis
       torque: the number's offset, for 8 of kind 3 the left torque's
     9 a measured loss that is negative; 10 an entry above 10,000,000 hundredths
       of Nm: the row's offset
     11 fewer entries lent than the map has, fewer losses lent than there are points,
       or a lent buffer too short for a listing: how many are needed
     12 data that goes on past the last field: the next byte's offset
     20 a speed below or above its axis; 21 a torque above its axis: 0
     22 what is lent is no map: 0
     30 a lent buffer shorter than the file: the length needed
     31 a ratio that is not in its range: the number's offset; its index is 0
     32 a number of a sensor that is not in its range: the number's offset; its
       index is 0 to 8, of N, w, z, c, k, s, p, d, R. Of a build, the tag of the
       sensor's field is the byte at place - 2 * index - 3 of the data
     40 a text whose first line is not the header of a listing, or has no line
       feed: 0
     41 a line that has not the form of a row, or no line feed; 42 a row that breaks
       its run: the offset of the line's first byte, blanks included. 42 also where
       the last run is short, or there are not 2 to 64 torques or not 2 to 32
       speeds: the text's length
     45 a step-up ratio outside 100 to 10,000, a count of readings outside 2 to 13, or
       another count of bearing losses: 0
     46 a bearing loss above its reading, or a drag above 10,000,000 hundredths of
       Nm: 0
     47 a retarder speed below the first or above the last point that has a
       reading: 0 */
#ifndef AXLE_H
#define AXLE_H

#include <stddef.h>
#include <stdint.h>

#ifdef __cplusplus
extern "C" {
#endif

/* No map has more speeds, torques or entries; no listing that is written, and no file
   of component data, has more bytes. */
enum { AXLE_SPEEDS = 32, AXLE_TORQUES = 64, AXLE_ENTRIES = 2048, AXLE_TEXT = 65536,
       AXLE_FILE = 24853 };

typedef struct {
    uint32_t refusal;
    uint32_t has_index;
    size_t place;
    size_t index;
    uint16_t speeds[32]; /* the first speed_count of them, rising */
    size_t speed_count;
    uint16_t torques[64]; /* the first torque_count of them, rising */
    size_t torque_count;
} axle_built;

/* The axes of a map that was loaded. */
typedef struct {
    uint32_t refusal;
    size_t place;
    uint16_t speeds[32]; /* the first speed_count of them, rising */
    size_t speed_count;
    uint16_t torques[64]; /* the first torque_count of them, rising */
    size_t torque_count;
} axle_axes_answer;

typedef struct {
    uint32_t refusal;
    size_t place;
    int64_t loss; /* hundredths of Nm; may be negative below the first torque */
} axle_loss_answer;

/* A point of a map that is asked. */
typedef struct {
    uint32_t speed;  /* tenths of rpm */
    uint32_t torque; /* hundredths of Nm */
} axle_point;

/* The losses themselves are written to what is lent for them. */
typedef struct {
    uint32_t refusal;
    uint32_t has_point;
    size_t place;
    size_t point;
} axle_losses_answer;

typedef struct {
    uint32_t refusal;
    size_t place;
    uint16_t speed;  /* rpm */
    uint16_t torque; /* Nm */
} axle_nearest_answer;

typedef struct {
    uint32_t refusal;
    size_t place;
    size_t length; /* bytes written */
} axle_length_answer;

typedef axle_length_answer axle_listing_answer;

typedef struct {
    uint32_t refusal;
    uint32_t has_index;
    size_t place;
    size_t index;
    size_t length; /* bytes written */
} axle_write_answer;

/* Uncertainties, in grains. */
typedef struct {
    uint32_t refusal;
    uint32_t has_index;
    size_t place;
    size_t index;
    uint64_t temperature_on_sensitivity; /* a */
    uint64_t temperature_on_zero;        /* b */
    uint64_t calibration;                /* g */
    uint64_t parasitic_loads;            /* h */
    uint64_t uncertainty;                /* U, of the sensor: the root over the four */
} axle_steps_answer;

typedef struct {
    uint32_t refusal;
    size_t place;
    uint32_t drag; /* hundredths of Nm */
} axle_drag_answer;

/* The numbers of component data, but for its rows. A sensor's nine numbers are
   N, w, z, c, k, s, p, d, R in the order of the data; docs/FORMAT.md has their
   meanings and ranges. */
typedef struct {
    uint16_t kind;  /* 1 to 3 */
    uint16_t line;  /* 1 to 5: SR, SRT, SP, HR, HRT */
    uint16_t ratio; /* thousandths */
    uint16_t speeds[32]; /* what stands past the first speed_count means nothing */
    size_t speed_count;
    uint16_t torques[64]; /* what stands past the first torque_count means nothing */
    size_t torque_count;
    uint16_t input[9];  /* of kinds 2 and 3 */
    uint16_t output[9]; /* of kinds 2 and 3; of kind 3 the left one */
    uint16_t right[9];  /* of kind 3 */
} axle_numbers;

/* Builds the map of component data. Entry (speed i, torque j) is written to
   entries[i * torque_count + j]; what stands past the last is not touched, and
   a refusal leaves every entry as it was. Refusals 1 to 12, 31 and 32. */
axle_built axle_build(const uint8_t *data, size_t data_length,
                      uint32_t *entries, size_t entry_count);

/* Loads the map that a listing says, in the form that axle_listing writes: the header
   speed,torque,loss and then rows, all of the first speed, then those of the next. A
   line ends with one line feed, the last too; spaces and tabs at both its ends are not
   looked at. A speed and a torque are 1 to 9 digits without leading zeros, the number
   0 being 0, and a loss is such a number, a point and two digits. The first run of
   rows with one speed gives the torques; each later run has as many rows, one speed
   and the same torques in their order.
   Entry (speed i, torque j) is written to entries[i * torque_count + j]; what stands
   past the last is not touched, and a refusal leaves every entry as it was.
   Every listing that axle_listing writes loads to its own map, and a loaded map listed
   again is the text without those blanks. What was loaded is a map: no call refuses it
   with 22. Refusals, in this order: 40; line by line 41, then 42; 42 with the text's
   length; then, each tested over the whole map, 4, 5, 6, 10, 11. */
axle_axes_answer axle_load(const uint8_t *text, size_t text_length,
                           uint32_t *entries, size_t entry_count);

/* The loss at a point of a map: its entries, linear in torque and in speed between
   them, and below the first torque along the line of the first two; rounded up once.
   Of a map from axle_build it is never below the exact loss of the data that the map
   was built from, and less than 3 hundredths above it; below the first torque more
   than the exact loss less 2 hundredths, and less than it plus 5. Nothing of an exact
   loss is said of a map from axle_load: its readings are not known.
   Refusals 22, 20, 21. */
axle_loss_answer axle_loss(const uint16_t speeds[32], size_t speed_count,
                           const uint16_t torques[64], size_t torque_count,
                           const uint32_t *entries, size_t entry_count,
                           uint32_t speed, uint32_t torque);

/* The losses at many points of a map, which is tested once. The loss of points[i] is
   written to losses[i], in hundredths of Nm. It is exactly the one that axle_loss answers
   for the point: as near to the exact loss, and negative or not. What stands past the
   first point_count losses is not touched, and a refused call writes nothing. Without
   points the call is answered, and nothing is written.
   Refusals, in this order: 22; 11 where loss_count is below point_count, the count
   needed; then point by point 20 and 21, each with place 0: the first that is met is
   told, with its point. */
axle_losses_answer axle_losses(const uint16_t speeds[32], size_t speed_count,
                               const uint16_t torques[64], size_t torque_count,
                               const uint32_t *entries, size_t entry_count,
                               const axle_point *points, size_t point_count,
                               int64_t *losses, size_t loss_count);

/* The nearest speed and the nearest torque of the axes, the lower one where two
   are equally near. Refusal 22, for the axes alone. */
axle_nearest_answer axle_nearest(const uint16_t speeds[32], size_t speed_count,
                                 const uint16_t torques[64], size_t torque_count,
                                 uint32_t speed, uint32_t torque);

/* Writes the listing of a map from the start of the text: a header and a line
   for each entry, each with a line feed, no byte 0 at the end. What stands past
   its length is not touched. A refused listing writes nothing. Refusals 22, 11. */
axle_listing_answer axle_listing(const uint16_t speeds[32], size_t speed_count,
                                 const uint16_t torques[64], size_t torque_count,
                                 const uint32_t *entries, size_t entry_count,
                                 uint8_t *text, size_t text_length);

/* Writes the file that says these numbers, from the start of the buffer. The rows
   are one run of torques in the order of the file: all points of the first speed,
   then those of the next; of each the input and the output torque, of kind 3 the
   input, the left and the right torque. Of kind 1 sensors and rows are not looked
   at, not even how many torques there are; of kind 2 the right sensor is not.
   A file that was written builds and says the same numbers, and data that a build
   accepts is the same bytes when its numbers are written again. With AXLE_FILE
   bytes lent, numbers are refused only where no data that says them builds.
   What stands past the file's length is not touched, and a refused call writes
   nothing. Refusals, in this order: kind and line 4; ratio 31; speeds 3, then
   number by number 4, 5; torques the same, then 6; sensors 32; the count of row
   torques 3; row by row 7 to 10; the buffer 30. */
axle_write_answer axle_write(axle_numbers numbers,
                             const uint32_t *rows, size_t row_torque_count,
                             uint8_t *file, size_t file_length);

/* The steps of a sensor's uncertainty, in grains, at a torque that it measured (in
   hundredths of Nm): the four parts in the order of the annex, then the root over
   them, each rounded up. A build takes U of each sensor of each row from them. The
   sensor's nine numbers are N, w, z, c, k, s, p, d, R. Refusals, in this order and
   both with place 0: a number out of its range 32, with its index; a torque above
   100 * N 7. */
axle_steps_answer axle_steps(const uint16_t sensor[9], uint32_t torque);

/* The drag of a retarder, from what was measured of it as a stand-alone unit: the
   readings are the measured torques at the first 2 to 13 of the points 200, 400, 600,
   900, 1200, 1600, 2000, 2500, 3000, 3500, 4000, 4500 and 5000 rpm, as many as there
   are, and the bearing losses those of the rig at the same points. A point's drag is
   its reading less its bearing loss.
   The speed is that of the drive; times the step-up ratio it is the retarder's, which
   is never rounded. At a point that has a reading the answer is the point's drag.
   Between two points the drag is linear, rounded up once: never below the exact line,
   less than 1 hundredth above it, and between the drags of the two points.
   Refusals, in this order and all with place 0: 45; 46, for which every reading is
   looked at, also those that the answer does not need; 47: the first and the last
   point that have a reading are answered. Below 200 rpm there is no answer. */
axle_drag_answer axle_retarder_drag(const uint32_t *readings, size_t reading_count,
                                    const uint32_t *bearing_losses, size_t bearing_loss_count,
                                    uint32_t ratio, uint32_t speed);

#ifdef __cplusplus
}
#endif

#endif
