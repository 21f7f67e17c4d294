/* What may be NULL: every call with NULL where a length is 0, beside the same call with a pointer to a byte of its own;
 * and what is no format: every call with such a number, beside the same call with no image at all.
 * Usage: lent IMAGE, one without wrong bits. Prints a line for each pair: what was lent, and both answers, which must be
 * equal. */
#include <stdio.h>
#include <string.h>

#include "ps2card.h"

/* What stands in a count before a call. */
enum { UNTOUCHED = 77 };

static uint8_t image[PS2CARD_MOST_BYTES], spare[1];
static size_t image_length;
static int differ;

static const uint8_t time_of_change[8] = {0, 56, 34, 12, 29, 2, 0xD0, 0x07};

static const uint8_t root[] = {'/'}, file[] = {'/', 'f'}, other[] = {'/', 'g'}, directory[] = {'/', 'd'};

static void pair(const char *name, size_t with_null, size_t with_byte) {
    printf("%s %lu %lu\n", name, (unsigned long)with_null, (unsigned long)with_byte);
    differ |= with_null != with_byte;
}

/* An answer, whose call was lent a count of mended chunks: written exactly where the call is accepted. */
static uint32_t counted(uint32_t number, size_t *mended) {
    differ |= *mended != (number == PS2CARD_DONE ? 0 : (size_t)UNTOUCHED);
    *mended = UNTOUCHED;
    return number;
}

/* The calls that look: a slice each of image and path, NULL or not. */
static void looks(uint32_t format, const uint8_t *im, size_t im_length, const uint8_t *path, size_t path_length,
                  size_t *answers) {
    ps2card_entry entry;
    ps2card_counts counts;
    size_t page = 0, count = 0, mended = UNTOUCHED;
    uint32_t found, at, number;
    uint8_t out[4];
    counts.mended = UNTOUCHED;
    number = ps2card_check_counts(format, im, im_length, &page, &counts);
    answers[0] = counted(number, &counts.mended);
    number = ps2card_find_entry(format, im, im_length, path, path_length, &page, &entry, &mended);
    answers[1] = counted(number, &mended);
    number = ps2card_step_entry(format, im, im_length, path, path_length, 2, &page, &found, &at, &entry, &mended);
    answers[2] = counted(number, &mended);
    number = ps2card_read(format, im, im_length, path, path_length, 0, out, sizeof out, &page, &count, &mended);
    answers[3] = counted(number, &mended);
    answers[4] = ps2card_list(format, im, im_length, 0, out, sizeof out);
}

static void changes(uint32_t format, uint8_t *im, size_t im_length, const uint8_t *path, size_t path_length,
                    size_t *answers) {
    size_t page = 0;
    answers[0] = ps2card_create(format, im, im_length, path, path_length, time_of_change, spare, 1, &page);
    answers[1] = ps2card_replace(format, im, im_length, path, path_length, time_of_change, spare, 1, &page);
    answers[2] = ps2card_delete(format, im, im_length, path, path_length, &page);
    answers[3] = ps2card_make_dir(format, im, im_length, path, path_length, time_of_change, &page);
    answers[4] = ps2card_remove_dir(format, im, im_length, path, path_length, &page);
}

static void pairs(const char *name, const size_t *with_null, const size_t *with_byte) {
    int k;
    for (k = 0; k < 5; k++) {
        pair(name, with_null[k], with_byte[k]);
    }
}

int main(int words_count, char **words) {
    FILE *input = words_count == 2 ? fopen(words[1], "rb") : NULL;
    size_t a[5], b[5], b_looks[5], page = 0, count = UNTOUCHED, no_count = UNTOUCHED, plain_length;
    size_t mended = UNTOUCHED, no_mended = UNTOUCHED;
    uint8_t kept[sizeof spare];
    if (!input) {
        return 2;
    }
    image_length = fread(image, 1, sizeof image, input);
    fclose(input);
    plain_length = image_length / PS2CARD_CLUSTER_BYTES * PS2CARD_PLAIN_CLUSTER_BYTES;
    memset(spare, 0xEE, sizeof spare);
    memcpy(kept, spare, sizeof spare);

    looks(PS2CARD_RAW, NULL, 0, root, sizeof root, a);
    looks(PS2CARD_RAW, spare, 0, root, sizeof root, b);
    pairs("image", a, b);
    memcpy(b_looks, b, sizeof b);
    changes(PS2CARD_RAW, NULL, 0, root, sizeof root, a);
    changes(PS2CARD_RAW, spare, 0, root, sizeof root, b);
    pairs("changed_image", a, b);
    looks(PS2CARD_RAW, image, image_length, NULL, 0, a);
    looks(PS2CARD_RAW, image, image_length, spare, 0, b);
    pairs("path", a, b);
    changes(PS2CARD_RAW, image, image_length, NULL, 0, a);
    changes(PS2CARD_RAW, image, image_length, spare, 0, b);
    pairs("changed_path", a, b);

    /* The other format, and what is none. */
    looks(PS2CARD_PLAIN, NULL, 0, root, sizeof root, a);
    looks(PS2CARD_PLAIN, spare, 0, root, sizeof root, b);
    pairs("plain_image", a, b);
    changes(PS2CARD_PLAIN, NULL, 0, root, sizeof root, a);
    changes(PS2CARD_PLAIN, spare, 0, root, sizeof root, b);
    pairs("changed_plain_image", a, b);
    looks(2, image, image_length, root, sizeof root, a);
    pairs("no_format", a, b_looks);
    looks(UINT32_MAX, image, image_length, root, sizeof root, a);
    pairs("no_format", a, b_looks);
    changes(2, image, image_length, other, sizeof other, a);
    pairs("changed_no_format", a, b);
    changes(UINT32_MAX, image, image_length, other, sizeof other, a);
    pairs("changed_no_format", a, b);

    /* Conversions. */
    pair("to_plain", ps2card_to_plain(NULL, 0, NULL, 0, &page), ps2card_to_plain(spare, 0, spare, 0, &page));
    pair("to_raw", ps2card_to_raw(NULL, 0, NULL, 0), ps2card_to_raw(spare, 0, spare, 0));
    pair("to_plain_out", ps2card_to_plain(image, image_length, NULL, 0, &page),
         ps2card_to_plain(image, image_length, spare, 0, &page));
    pair("to_raw_out", ps2card_to_raw(image, plain_length, NULL, 0), ps2card_to_raw(image, plain_length, spare, 0));

    /* Bytes and buffers of length 0, on a card that takes them. */
    pair("create", ps2card_create(PS2CARD_RAW, image, image_length, file, sizeof file, time_of_change, NULL, 0, &page),
         ps2card_create(PS2CARD_RAW, image, image_length, other, sizeof other, time_of_change, spare, 0, &page));
    pair("replace",
         ps2card_replace(PS2CARD_RAW, image, image_length, file, sizeof file, time_of_change, NULL, 0, &page),
         ps2card_replace(PS2CARD_RAW, image, image_length, other, sizeof other, time_of_change, spare, 0, &page));
    pair("read",
         ps2card_read(PS2CARD_RAW, image, image_length, file, sizeof file, 0, NULL, 0, &page, &no_count, &no_mended),
         ps2card_read(PS2CARD_RAW, image, image_length, other, sizeof other, 0, spare, 0, &page, &count, &mended));
    pair("count", no_count, count);
    pair("mended", no_mended, mended);
    pair("list", ps2card_list(PS2CARD_RAW, image, image_length, 0, NULL, 0),
         ps2card_list(PS2CARD_RAW, image, image_length, 0, spare, 0));
    pair("bad_minutes", ps2card_list(PS2CARD_RAW, image, image_length, PS2CARD_LEAST_MINUTES - 1, NULL, 0),
         ps2card_list(PS2CARD_RAW, image, image_length, PS2CARD_MOST_MINUTES + 1, spare, 0));
    /* Before what is wrong with image and format. */
    pair("bad_minutes_first", ps2card_list(PS2CARD_PLAIN, NULL, 0, INT32_MIN, NULL, 0),
         ps2card_list(2, spare, 0, INT32_MAX, spare, 0));
    pair("make_dir",
         ps2card_make_dir(PS2CARD_RAW, image, image_length, directory, sizeof directory, time_of_change, &page), 0);
    no_mended = mended = UNTOUCHED;
    pair("read_directory",
         ps2card_read(PS2CARD_RAW, image, image_length, directory, sizeof directory, 0, NULL, 0, &page, &no_count,
                      &no_mended),
         ps2card_read(PS2CARD_RAW, image, image_length, directory, sizeof directory, 0, spare, 0, &page, &count,
                      &mended));
    pair("mended_directory", no_mended, mended);
    return differ || memcmp(kept, spare, sizeof spare) != 0;
}
