/* A host in C: it loads the sheet of a gain surface, asks for a gain, finds a tensor that a loader left stale, changes the sample as it should
 * have been, asks again and writes the sheet back. Nothing is allocated: every slice that a call is lent stands here. */
#include "hullashlar.h"

#include <inttypes.h>
#include <math.h>
#include <stdio.h>
#include <stdlib.h>
#include <string.h>

/* What a sheet says. */
struct sheet {
    uint64_t edition;
    uint64_t axes;
    uint64_t points[HULLASHLAR_AXES];
    uint8_t kinds[HULLASHLAR_ENDS];
    double values[HULLASHLAR_ENDS];
    uint8_t modes[HULLASHLAR_AXES];
    double knots[HULLASHLAR_BUFFER];
    double samples[HULLASHLAR_BUFFER];
};

static double tensor[HULLASHLAR_TENSOR];
static double fresh[HULLASHLAR_TENSOR];
static double scratch[HULLASHLAR_MOST_SCRATCH];

/* Ends the program where a call that should be accepted is refused. */
static void accept(const char *call, uint64_t refusal)
{
    if (refusal != HULLASHLAR_ACCEPTED) {
        fprintf(stderr, "%s: refused %" PRIu64 "\n", call, refusal);
        exit(1);
    }
}

static uint64_t knots_length(const struct sheet *sheet)
{
    uint64_t length = 0;
    for (uint64_t axis = 0; axis < sheet->axes; axis++)
        length += sheet->points[axis];
    return length;
}

static uint64_t samples_length(const struct sheet *sheet)
{
    uint64_t length = 1;
    for (uint64_t axis = 0; axis < sheet->axes; axis++)
        length *= sheet->points[axis];
    return length;
}

static uint64_t tensor_length(const struct sheet *sheet)
{
    return samples_length(sheet) << sheet->axes;
}

/* The sheet's parts, its tensor, and how many numbers that has. Of a file that is too long one byte more than the longest sheet is enough to have
 * it refused. */
static void load(const char *path, struct sheet *sheet, uint64_t *numbers)
{
    static uint8_t bytes[HULLASHLAR_SHEET + 1];
    FILE *file = fopen(path, "rb");
    if (file == NULL) {
        perror(path);
        exit(1);
    }
    size_t length = fread(bytes, 1, sizeof bytes, file);
    fclose(file);
    accept("sheet_tensor", hullashlar_sheet_tensor(bytes, length, sheet->knots, HULLASHLAR_BUFFER, sheet->samples,
                                                   HULLASHLAR_BUFFER, &sheet->axes, 1, sheet->points, HULLASHLAR_AXES,
                                                   sheet->kinds, HULLASHLAR_ENDS, sheet->values, HULLASHLAR_ENDS,
                                                   sheet->modes, HULLASHLAR_AXES, &sheet->edition, 1, tensor,
                                                   HULLASHLAR_TENSOR, scratch, HULLASHLAR_MOST_SCRATCH, numbers, 1));
}

static void build_fresh(const struct sheet *sheet)
{
    accept("build", hullashlar_build(sheet->axes, sheet->points, HULLASHLAR_AXES, sheet->kinds, HULLASHLAR_ENDS,
                                     sheet->values, HULLASHLAR_ENDS, sheet->knots, knots_length(sheet), sheet->samples,
                                     samples_length(sheet), fresh, tensor_length(sheet), scratch,
                                     HULLASHLAR_MOST_SCRATCH));
}

static uint64_t change(const struct sheet *sheet, const uint64_t place[HULLASHLAR_AXES], double sample)
{
    uint64_t lanes;
    accept("change", hullashlar_change(sheet->axes, sheet->points, HULLASHLAR_AXES, sheet->kinds, HULLASHLAR_ENDS,
                                       sheet->values, HULLASHLAR_ENDS, sheet->knots, knots_length(sheet), tensor,
                                       tensor_length(sheet), scratch, HULLASHLAR_MOST_SCRATCH, place, HULLASHLAR_AXES,
                                       sample, &lanes, 1));
    return lanes;
}

/* Whether the tensor is that of its own samples, and else where it first is not. */
static void verify(const struct sheet *sheet)
{
    uint64_t place[HULLASHLAR_AXES];
    uint64_t found[HULLASHLAR_FOUND];
    accept("verify", hullashlar_verify(sheet->axes, sheet->points, HULLASHLAR_AXES, sheet->kinds, HULLASHLAR_ENDS,
                                       sheet->values, HULLASHLAR_ENDS, sheet->knots, knots_length(sheet), tensor,
                                       tensor_length(sheet), scratch, HULLASHLAR_MOST_SCRATCH, place, HULLASHLAR_AXES,
                                       found, HULLASHLAR_FOUND));
    if (found[0] == 1)
        printf("the tensor is whole\n");
    else
        printf("the tensor is stale: %" PRIu64 " of its numbers differ, the first at %" PRIu64 ", %" PRIu64
               " with mask %" PRIu64 "\n", found[2], place[0], place[1], found[1]);
}

static uint64_t query(const struct sheet *sheet, const double *coordinates, double *value, uint64_t labels[HULLASHLAR_AXES])
{
    /* The sheet says what becomes of a point outside what was measured: the gain is that of the nearest end. */
    return hullashlar_query(sheet->axes, sheet->points, HULLASHLAR_AXES, sheet->modes, HULLASHLAR_AXES, sheet->knots,
                            knots_length(sheet), tensor, tensor_length(sheet), coordinates, sheet->axes, value, 1,
                            labels, HULLASHLAR_AXES);
}

/* The sheet with the samples that stand now, in its own edition, in a file. */
static void write_back(const char *path, const struct sheet *sheet)
{
    static uint8_t bytes[HULLASHLAR_SHEET];
    uint64_t length;
    accept("write", hullashlar_write(sheet->axes, sheet->points, HULLASHLAR_AXES, sheet->kinds, HULLASHLAR_ENDS,
                                     sheet->values, HULLASHLAR_ENDS, sheet->modes, HULLASHLAR_AXES, sheet->knots,
                                     knots_length(sheet), sheet->samples, samples_length(sheet), sheet->edition, bytes,
                                     HULLASHLAR_SHEET, &length, 1));
    FILE *file = fopen(path, "wb");
    if (file == NULL || fwrite(bytes, 1, length, file) != length || fclose(file) != 0) {
        perror(path);
        exit(1);
    }
}

static void print_gain(const struct sheet *sheet, const double *coordinates)
{
    double gain;
    uint64_t cell[HULLASHLAR_AXES];
    accept("query", query(sheet, coordinates, &gain, cell));
    printf("gain at %.1f kHz and %.1f dB: %.6f dB, in cell %" PRIu64 ", %" PRIu64 "\n", coordinates[0], coordinates[1],
           gain, cell[0], cell[1]);
}

static uint64_t sample_number(const struct sheet *sheet, const uint64_t place[HULLASHLAR_AXES])
{
    return place[0] * sheet->points[1] + place[1];
}

/* What a loader does that knows nothing of derivatives: the new sample is written where it stands in the tensor, at mask 0. */
static void overwrite(const struct sheet *sheet, const uint64_t place[HULLASHLAR_AXES], double sample)
{
    tensor[sample_number(sheet, place) << sheet->axes] = sample;
    printf("sample at %" PRIu64 ", %" PRIu64 " overwritten by %.1f\n", place[0], place[1], sample);
}

/* The gain between measured points moves with the sample, and no number of the tensor is an old one. */
static void change_and_compare(struct sheet *sheet, const uint64_t place[HULLASHLAR_AXES], double sample)
{
    double *changed = &sheet->samples[sample_number(sheet, place)];
    uint64_t lanes = change(sheet, place, sample);
    printf("sample at %" PRIu64 ", %" PRIu64 ": %.1f in place of %.1f, %" PRIu64 " lanes solved again\n", place[0],
           place[1], sample, *changed, lanes);
    *changed = sample;
    build_fresh(sheet);
    int same = memcmp(tensor, fresh, tensor_length(sheet) * sizeof *tensor) == 0;
    printf("a fresh build of the new samples has the same bits: %s\n", same ? "yes" : "no");
}

int main(int count, char **arguments)
{
    static struct sheet sheet;
    const double point[2] = {1.5, 60.0};
    const double no_point[2] = {1.5, NAN};
    const uint64_t place[HULLASHLAR_AXES] = {2, 2};
    double gain;
    uint64_t cell[HULLASHLAR_AXES];
    uint64_t numbers;

    if (!hullashlar_floats_ready()) return 3; /* numbers would be rounded or flushed otherwise than the calls need it */
    if (count != 3) {
        fprintf(stderr, "%s SHEET WRITTEN\n", arguments[0]);
        return 2;
    }
    load(arguments[1], &sheet, &numbers);
    printf("sheet of %" PRIu64 " axes, %" PRIu64 " and %" PRIu64 " points; tensor of %" PRIu64 " numbers\n", sheet.axes,
           sheet.points[0], sheet.points[1], numbers);
    print_gain(&sheet, point);
    overwrite(&sheet, place, 15.0);
    print_gain(&sheet, point);
    verify(&sheet);
    change_and_compare(&sheet, place, 15.0);
    print_gain(&sheet, point);
    verify(&sheet);
    printf("gain at a level that is no number: refused %" PRIu64 "\n", query(&sheet, no_point, &gain, cell));
    write_back(arguments[2], &sheet);
    return 0;
}
