/*
 * Growing seed strokes into a greyscale image, in plain C: the program that
 * Seedpaint is measured against.
 *
 * It reads the same input (edit lines, the line `image`, a raw PGM file) from
 * standard input and writes the same raw PGM file to standard output. Growing
 * is the hybrid algorithm of Luc Vincent, "Morphological Grayscale
 * Reconstruction in Image Analysis" (1993): a raster scan, an anti-raster scan
 * that queues the pixels from which more can grow, and then a queue that is
 * first in, first out. Cells have 16 bits. Around the image lies a frame of
 * one pixel whose mask is 0, so that each pixel has all of its neighbours.
 *
 *     cc -O2 -o baseline baseline.c
 *     ./baseline [--conn 4|8] < input > output
 *     ./baseline --marker < input > output
 *     ./baseline --fill | --hmax H | --regmax [--conn 4|8] < image > output
 *
 * The second form writes the marker, before anything grows. The third reads a
 * raw PGM file alone and writes a view of it: its holes filled, its domes cut
 * down by H, or its regional maxima (no sample may be 65535 there). Each view
 * is what grows from a marker inside a mask that the image gives.
 * Inputs are taken to be well formed; what cannot be read ends the program
 * with status 1.
 */

#include <ctype.h>
#include <stddef.h>
#include <stdint.h>
#include <stdio.h>
#include <stdlib.h>
#include <string.h>
#include <strings.h>

struct bytes {
    uint8_t *data;
    size_t length;
};

struct tag {
    char digits[32];
};

struct stroke {
    struct tag tag;
    int is_disc;
    uint16_t level;
    const char *shape; /* what follows the level on its line */
};

struct edits {
    struct stroke *strokes;
    size_t stroke_count, stroke_room;
    struct tag *withdrawn;
    size_t withdrawn_count, withdrawn_room;
};

/* Mask and image with their frame; `stride` is the length of a framed row. */
struct picture {
    size_t width, height, stride;
    unsigned maxval;
    uint16_t *mask, *image;
};

struct queue {
    uint32_t *items;
    size_t room, first, count; /* room is a power of two */
};

enum task { VIEW, MARKER, FILL, HMAX, REGMAX };

struct words {
    enum task task;
    int conn;
    unsigned height; /* of the domes that are cut down */
};

static void fail(const char *reason)
{
    fprintf(stderr, "baseline: %s\n", reason);
    exit(1);
}

static void *checked(void *memory)
{
    if (memory == NULL)
        fail("out of memory");
    return memory;
}

/* A growing array once it has room for one item more than `count`. */
static void *with_room(void *items, size_t count, size_t *room, size_t size)
{
    if (count < *room)
        return items;
    *room = 2 * *room + 16;
    return checked(realloc(items, *room * size));
}

/* ---- Input ---- */

static struct bytes read_all(FILE *file)
{
    struct bytes input = {NULL, 0};
    size_t room = 1 << 16, got;

    input.data = checked(malloc(room + 1));
    while ((got = fread(input.data + input.length, 1, room - input.length, file)) > 0) {
        input.length += got;
        if (input.length == room) {
            room *= 2;
            input.data = checked(realloc(input.data, room + 1));
        }
    }
    if (ferror(file))
        fail("cannot read");
    input.data[input.length] = 0;
    return input;
}

/* A tag is a UUID in any of its four spellings; its 32 digits are kept. */
static struct tag read_tag(const char *word)
{
    struct tag tag;
    size_t count = 0;

    if (strncasecmp(word, "urn:uuid:", 9) == 0)
        word += 9;
    for (; count < 32 && *word != 0; word++)
        if (isxdigit((unsigned char)*word))
            tag.digits[count++] = (char)tolower((unsigned char)*word);
    if (count < 32)
        fail("not a tag");
    return tag;
}

static int compare_tags(const void *one, const void *other)
{
    return memcmp(one, other, sizeof(struct tag));
}

static void read_line(struct edits *edits, char *line)
{
    static const char blanks[] = " \t\r";
    const char *kind = strtok(line, blanks);
    const char *tag, *level, *shape;

    if (kind == NULL || kind[0] == ';')
        return;
    tag = strtok(NULL, blanks);
    if (tag == NULL)
        fail("a line without a tag");
    if (strcmp(kind, "withdraw") == 0) {
        edits->withdrawn =
            with_room(edits->withdrawn, edits->withdrawn_count, &edits->withdrawn_room, sizeof *edits->withdrawn);
        edits->withdrawn[edits->withdrawn_count++] = read_tag(tag);
        return;
    }
    level = strtok(NULL, blanks);
    shape = strtok(NULL, blanks);
    if (shape == NULL || (strcmp(kind, "place") != 0 && strcmp(kind, "disc") != 0))
        fail("a line that is neither place, disc nor withdraw");
    edits->strokes = with_room(edits->strokes, edits->stroke_count, &edits->stroke_room, sizeof *edits->strokes);
    struct stroke *stroke = &edits->strokes[edits->stroke_count++];
    stroke->tag = read_tag(tag);
    stroke->is_disc = strcmp(kind, "disc") == 0;
    stroke->level = (uint16_t)strtoul(level, NULL, 10);
    stroke->shape = shape;
}

/* Reads the edit lines, and returns where the file behind `image` begins. */
static uint8_t *read_edits(struct edits *edits, struct bytes input)
{
    char *line = (char *)input.data, *end = line + input.length;

    for (;;) {
        char *feed = memchr(line, '\n', (size_t)(end - line));
        if (feed == NULL)
            fail("no image line");
        *feed = 0;
        if (strcmp(line, "image") == 0 || strcmp(line, "image\r") == 0)
            break;
        read_line(edits, line);
        line = feed + 1;
    }
    if (edits->withdrawn_count > 0)
        qsort(edits->withdrawn, edits->withdrawn_count, sizeof *edits->withdrawn, compare_tags);
    return (uint8_t *)line + strlen(line) + 1;
}

static unsigned read_number(uint8_t **at)
{
    unsigned number = 0;

    while (isspace(**at) || **at == '#') {
        if (**at == '#')
            *at += strcspn((char *)*at, "\r\n");
        else
            (*at)++;
    }
    if (!isdigit(**at))
        fail("not a number");
    for (; isdigit(**at); (*at)++)
        number = 10 * number + (unsigned)(**at - '0');
    return number;
}

static struct picture read_picture(uint8_t *file, const uint8_t *end)
{
    struct picture picture;

    if (file + 2 > end || memcmp(file, "P5", 2) != 0)
        fail("not a raw PGM file");
    file += 2;
    picture.width = read_number(&file);
    picture.height = read_number(&file);
    picture.maxval = read_number(&file);
    file++;
    size_t sample = picture.maxval < 256 ? 1 : 2;
    if ((size_t)(end - file) != picture.width * picture.height * sample)
        fail("a raster of another length");

    picture.stride = picture.width + 2;
    size_t cells = picture.stride * (picture.height + 2);
    picture.mask = checked(calloc(cells, sizeof *picture.mask));
    picture.image = checked(calloc(cells, sizeof *picture.image));
    for (size_t y = 0; y < picture.height; y++) {
        uint16_t *row = picture.mask + (y + 1) * picture.stride + 1;
        if (sample == 1) {
            for (size_t x = 0; x < picture.width; x++)
                row[x] = file[x];
        } else {
            for (size_t x = 0; x < picture.width; x++)
                row[x] = (uint16_t)(file[2 * x] << 8 | file[2 * x + 1]);
        }
        file += picture.width * sample;
    }
    return picture;
}

/* ---- Marker ---- */

/* Paints one run, columns `first` to `last` of row `y`, no higher than the mask. */
static void paint_run(struct picture *picture, size_t y, size_t first, size_t last, uint16_t level)
{
    if (y >= picture->height || last >= picture->width)
        fail("a stroke outside the image");
    size_t row = (y + 1) * picture->stride + 1;
    for (size_t p = row + first; p <= row + last; p++) {
        uint16_t value = level < picture->mask[p] ? level : picture->mask[p];
        if (picture->image[p] < value)
            picture->image[p] = value;
    }
}

static void paint_runs(struct picture *picture, const char *text, uint16_t level)
{
    for (;;) {
        char *next;
        size_t y = strtoul(text, &next, 10);
        size_t first = strtoul(next + 1, &next, 10);
        size_t last = strtoul(next + 1, &next, 10);
        paint_run(picture, y, first, last, level);
        if (*next != ',')
            return;
        text = next + 1;
    }
}

static void paint_disc(struct picture *picture, const char *text, uint16_t level)
{
    char *next;
    long centre_y = strtol(text, &next, 10);
    long centre_x = strtol(next + 1, &next, 10);
    long radius = strtol(next + 1, &next, 10);

    for (long dy = -radius; dy <= radius; dy++) {
        long y = centre_y + dy, reach = 0;
        if (y < 0 || y >= (long)picture->height)
            continue;
        while ((reach + 1) * (reach + 1) + dy * dy <= radius * radius)
            reach++;
        long first = centre_x - reach, last = centre_x + reach;
        if (first < 0)
            first = 0;
        if (last >= (long)picture->width)
            last = (long)picture->width - 1;
        paint_run(picture, (size_t)y, (size_t)first, (size_t)last, level);
    }
}

/* Paints each stroke that is not withdrawn. */
static void paint_marker(struct picture *picture, const struct edits *edits)
{
    for (size_t i = 0; i < edits->stroke_count; i++) {
        const struct stroke *stroke = &edits->strokes[i];
        if (edits->withdrawn_count > 0
            && bsearch(&stroke->tag, edits->withdrawn, edits->withdrawn_count, sizeof stroke->tag, compare_tags))
            continue;
        if (stroke->is_disc)
            paint_disc(picture, stroke->shape, stroke->level);
        else
            paint_runs(picture, stroke->shape, stroke->level);
    }
}

/* ---- Growing ---- */

static inline uint16_t greater(uint16_t a, uint16_t b)
{
    return a > b ? a : b;
}

static inline uint16_t lesser(uint16_t a, uint16_t b)
{
    return a < b ? a : b;
}

static void push(struct queue *queue, size_t pixel)
{
    if (queue->count == queue->room) {
        uint32_t *items = checked(malloc(2 * queue->room * sizeof *items));
        size_t behind = queue->room - queue->first;
        memcpy(items, queue->items + queue->first, behind * sizeof *items);
        memcpy(items + behind, queue->items, queue->first * sizeof *items);
        free(queue->items);
        queue->items = items;
        queue->first = 0;
        queue->room *= 2;
    }
    queue->items[(queue->first + queue->count++) & (queue->room - 1)] = (uint32_t)pixel;
}

static size_t pop(struct queue *queue)
{
    size_t pixel = queue->items[queue->first];
    queue->first = (queue->first + 1) & (queue->room - 1);
    queue->count--;
    return pixel;
}

/* Raises each pixel from the neighbours before it, top row first. */
static void raster_scan(struct picture *picture, int conn)
{
    size_t stride = picture->stride;

    for (size_t y = 1; y <= picture->height; y++) {
        const uint16_t *mask = picture->mask + y * stride;
        const uint16_t *above = picture->image + (y - 1) * stride;
        uint16_t *row = picture->image + y * stride;
        uint16_t value = 0;
        for (size_t x = 1; x <= picture->width; x++) {
            uint16_t near = greater(row[x], above[x]);
            if (conn == 8)
                near = greater(near, greater(above[x - 1], above[x + 1]));
            value = lesser(greater(near, value), mask[x]);
            row[x] = value;
        }
    }
}

/* Whether a value can raise a neighbour that has this image and mask. */
static inline int raises(uint16_t value, uint16_t image, uint16_t mask)
{
    return image < value && image < mask;
}

/* Raises each pixel from the neighbours behind it, bottom row first, and queues it if it can raise one of them. */
static void anti_raster_scan(struct picture *picture, int conn, struct queue *queue)
{
    size_t stride = picture->stride;

    for (size_t y = picture->height; y >= 1; y--) {
        const uint16_t *mask = picture->mask + y * stride;
        const uint16_t *mask_below = mask + stride;
        const uint16_t *below = picture->image + (y + 1) * stride;
        uint16_t *row = picture->image + y * stride;
        uint16_t right = 0;
        for (size_t x = picture->width; x >= 1; x--) {
            uint16_t near = greater(row[x], below[x]);
            if (conn == 8)
                near = greater(near, greater(below[x - 1], below[x + 1]));
            uint16_t value = lesser(greater(near, right), mask[x]);
            row[x] = value;
            if (raises(value, right, mask[x + 1]) || raises(value, below[x], mask_below[x])
                || (conn == 8
                    && (raises(value, below[x - 1], mask_below[x - 1])
                        || raises(value, below[x + 1], mask_below[x + 1]))))
                push(queue, y * stride + x);
            right = value;
        }
    }
}

/* Takes pixels from the queue and raises their neighbours, until none is left. */
static void propagate(struct picture *picture, int conn, struct queue *queue)
{
    const uint16_t *mask = picture->mask;
    uint16_t *image = picture->image;
    ptrdiff_t stride = (ptrdiff_t)picture->stride;
    const ptrdiff_t steps[8] = {-stride, -1, 1, stride, -stride - 1, -stride + 1, stride - 1, stride + 1};

    while (queue->count > 0) {
        size_t p = pop(queue);
        uint16_t value = image[p];
        for (int i = 0; i < conn; i++) {
            size_t q = p + (size_t)steps[i];
            if (raises(value, image[q], mask[q])) {
                image[q] = lesser(value, mask[q]);
                push(queue, q);
            }
        }
    }
}

static void grow(struct picture *picture, int conn)
{
    struct queue queue = {NULL, 1 << 12, 0, 0};

    queue.items = checked(malloc(queue.room * sizeof *queue.items));
    raster_scan(picture, conn);
    anti_raster_scan(picture, conn, &queue);
    propagate(picture, conn, &queue);
    free(queue.items);
}

/* ---- Views of an image ---- */

/* Turns the mask upside down, and lets its border be the marker. */
static void prepare_fill(struct picture *picture)
{
    for (size_t y = 1; y <= picture->height; y++) {
        for (size_t x = 1; x <= picture->width; x++) {
            size_t p = y * picture->stride + x;
            picture->mask[p] = (uint16_t)(picture->maxval - picture->mask[p]);
            if (y == 1 || y == picture->height || x == 1 || x == picture->width)
                picture->image[p] = picture->mask[p];
        }
    }
}

/* Turns what has grown back. */
static void finish_fill(struct picture *picture)
{
    for (size_t y = 1; y <= picture->height; y++)
        for (size_t x = 1; x <= picture->width; x++)
            picture->image[y * picture->stride + x] =
                (uint16_t)(picture->maxval - picture->image[y * picture->stride + x]);
}

/* Lets the image less h be the marker. */
static void prepare_domes(struct picture *picture, unsigned h)
{
    for (size_t y = 1; y <= picture->height; y++) {
        for (size_t x = 1; x <= picture->width; x++) {
            size_t p = y * picture->stride + x;
            picture->image[p] = picture->mask[p] > h ? (uint16_t)(picture->mask[p] - h) : 0;
        }
    }
}

/* Lets the image be the marker inside itself raised by 1. */
static void prepare_maxima(struct picture *picture)
{
    for (size_t y = 1; y <= picture->height; y++) {
        for (size_t x = 1; x <= picture->width; x++) {
            size_t p = y * picture->stride + x;
            if (picture->mask[p] == UINT16_MAX)
                fail("a sample without room above it");
            picture->image[p] = picture->mask[p]++;
        }
    }
}

/* What the mask has more than what has grown in it: 1 on the maxima. */
static void finish_maxima(struct picture *picture)
{
    for (size_t y = 1; y <= picture->height; y++) {
        for (size_t x = 1; x <= picture->width; x++) {
            size_t p = y * picture->stride + x;
            picture->image[p] = picture->mask[p] - picture->image[p];
        }
    }
    picture->maxval = 1;
}

static void derive(struct picture *picture, struct words words)
{
    switch (words.task) {
    case FILL:
        prepare_fill(picture);
        grow(picture, words.conn);
        finish_fill(picture);
        break;
    case HMAX:
        prepare_domes(picture, words.height);
        grow(picture, words.conn);
        break;
    default:
        prepare_maxima(picture);
        grow(picture, words.conn);
        finish_maxima(picture);
    }
}

/* ---- Output ---- */

static void write_picture(const struct picture *picture, FILE *file)
{
    size_t sample = picture->maxval < 256 ? 1 : 2;
    size_t length = picture->width * picture->height * sample;
    uint8_t *raster = checked(malloc(length)), *at = raster;

    for (size_t y = 1; y <= picture->height; y++) {
        const uint16_t *row = picture->image + y * picture->stride + 1;
        if (sample == 1) {
            for (size_t x = 0; x < picture->width; x++)
                at[x] = (uint8_t)row[x];
        } else {
            for (size_t x = 0; x < picture->width; x++) {
                at[2 * x] = (uint8_t)(row[x] >> 8);
                at[2 * x + 1] = (uint8_t)row[x];
            }
        }
        at += picture->width * sample;
    }
    fprintf(file, "P5\n%zu %zu\n%u\n", picture->width, picture->height, picture->maxval);
    if (fwrite(raster, 1, length, file) != length || fflush(file) != 0)
        fail("cannot write");
    free(raster);
}

static const char usage[] = "usage: baseline [--marker | --fill | --hmax H | --regmax] [--conn 4|8]";

static struct words read_words(int argc, char **argv)
{
    struct words words = {VIEW, 4, 0};

    for (int i = 1; i < argc; i++) {
        if (strcmp(argv[i], "--marker") == 0) {
            words.task = MARKER;
        } else if (strcmp(argv[i], "--fill") == 0) {
            words.task = FILL;
        } else if (strcmp(argv[i], "--regmax") == 0) {
            words.task = REGMAX;
        } else if (strcmp(argv[i], "--hmax") == 0 && i + 1 < argc) {
            words.task = HMAX;
            words.height = (unsigned)strtoul(argv[++i], NULL, 10);
        } else if (strcmp(argv[i], "--conn") == 0 && i + 1 < argc) {
            words.conn = (int)strtoul(argv[++i], NULL, 10);
        } else {
            fail(usage);
        }
    }
    if (words.conn != 4 && words.conn != 8)
        fail(usage);
    return words;
}

int main(int argc, char **argv)
{
    struct words words = read_words(argc, argv);
    struct bytes input = read_all(stdin);
    const uint8_t *end = input.data + input.length;
    struct picture picture;

    if (words.task == VIEW || words.task == MARKER) {
        struct edits edits = {NULL, 0, 0, NULL, 0, 0};
        picture = read_picture(read_edits(&edits, input), end);
        paint_marker(&picture, &edits);
        if (words.task == VIEW)
            grow(&picture, words.conn);
    } else {
        picture = read_picture(input.data, end);
        derive(&picture, words);
    }
    write_picture(&picture, stdout);
    return 0;
}
