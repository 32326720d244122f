/*
 * Reconstructs a mask from a marker with Leptonica's pixSeedfillGray.
 *
 *     cc -O2 -o leptonica leptonica.c -llept
 *     ./leptonica 4|8 MASK MARKER > output
 *
 * MASK and MARKER are raw PGM files of 8 bits, and so is the output.
 */

#include <leptonica/allheaders.h>
#include <stdio.h>
#include <stdlib.h>

static void fail(const char *reason)
{
    fprintf(stderr, "leptonica: %s\n", reason);
    exit(1);
}

/* Reads a raw PGM file into a picture of 8 bits a pixel. */
static PIX *read_picture(const char *path, unsigned *maxval)
{
    FILE *file = fopen(path, "rb");
    int width, height;

    if (file == NULL || fscanf(file, "P5 %d %d %u", &width, &height, maxval) != 3 || *maxval > 255)
        fail("cannot read a header");
    fgetc(file);
    PIX *picture = pixCreate(width, height, 8);
    l_uint8 *row = malloc((size_t)width);
    if (picture == NULL || row == NULL)
        fail("out of memory");
    for (int y = 0; y < height; y++) {
        l_uint32 *line = pixGetData(picture) + (size_t)y * (size_t)pixGetWpl(picture);
        if (fread(row, 1, (size_t)width, file) != (size_t)width)
            fail("cannot read a raster");
        for (int x = 0; x < width; x++)
            SET_DATA_BYTE(line, x, row[x]);
    }
    free(row);
    fclose(file);
    return picture;
}

static void write_picture(PIX *picture, unsigned maxval)
{
    int width = pixGetWidth(picture), height = pixGetHeight(picture);
    l_uint8 *row = malloc((size_t)width);

    if (row == NULL)
        fail("out of memory");
    printf("P5\n%d %d\n%u\n", width, height, maxval);
    for (int y = 0; y < height; y++) {
        l_uint32 *line = pixGetData(picture) + (size_t)y * (size_t)pixGetWpl(picture);
        for (int x = 0; x < width; x++)
            row[x] = (l_uint8)GET_DATA_BYTE(line, x);
        if (fwrite(row, 1, (size_t)width, stdout) != (size_t)width)
            fail("cannot write");
    }
    free(row);
}

int main(int argc, char **argv)
{
    unsigned maxval;

    if (argc != 4)
        fail("usage: leptonica 4|8 MASK MARKER");
    PIX *mask = read_picture(argv[2], &maxval);
    PIX *image = read_picture(argv[3], &maxval);
    if (pixSeedfillGray(image, mask, atoi(argv[1])) != 0)
        fail("pixSeedfillGray failed");
    write_picture(image, maxval);
    return 0;
}
