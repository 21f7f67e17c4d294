/* Calls every function of ps2card.h on a card and prints what it answers; leaves the changed image behind, and the same
 * in the other format. Usage: header [--plain] IMAGE CHANGED CONVERTED. The same calls through the Rust wrapper must
 * print the same. */
#include <stdio.h>
#include <stdlib.h>
#include <string.h>

#include "ps2card.h"

/* What stands in an output before a call. */
enum { UNTOUCHED = 77 };

static uint32_t format = PS2CARD_RAW;
static uint8_t image[PS2CARD_MOST_BYTES], converted[PS2CARD_MOST_BYTES + 1];
static size_t image_length;

static const uint8_t time_of_change[8] = {0, 56, 34, 12, 29, 2, 0xD0, 0x07};
static const uint8_t no_time[8] = {1, 0, 0, 0, 0, 0, 0, 0};

static const uint8_t *text(const char *path) {
    return (const uint8_t *)path;
}

static void print_hex(const uint8_t *bytes, size_t count) {
    size_t i;
    for (i = 0; i < count; i++) {
        printf("%02x", bytes[i]);
    }
}

static void print_entry(const ps2card_entry *e) {
    printf(" %x %lu %lu %lu %lu ", (unsigned)e->mode, (unsigned long)e->length, (unsigned long)e->first,
           (unsigned long)e->dir_entry, (unsigned long)e->attribute);
    print_hex(e->created, 8);
    print_hex(e->modified, 8);
    print_hex(e->name, 32);
    printf("\n");
}

static void check(size_t length) {
    ps2card_counts c = {UNTOUCHED, UNTOUCHED, UNTOUCHED, UNTOUCHED, UNTOUCHED, UNTOUCHED};
    size_t page = UNTOUCHED;
    uint32_t number = ps2card_check_counts(format, image, length, &page, &c);
    printf("check %lu %lu %lu %lu %lu %lu %lu %lu\n", (unsigned long)number, (unsigned long)page,
           (unsigned long)c.clusters, (unsigned long)c.free, (unsigned long)c.reached, (unsigned long)c.orphaned,
           (unsigned long)c.held, (unsigned long)c.mended);
}

static void find(const char *path) {
    ps2card_entry e;
    size_t page = UNTOUCHED, mended = UNTOUCHED;
    uint32_t number;
    memset(&e, UNTOUCHED, sizeof e);
    number = ps2card_find_entry(format, image, image_length, text(path), strlen(path), &page, &e, &mended);
    printf("find %lu %lu %lu %d %d %lu", (unsigned long)number, (unsigned long)page, (unsigned long)mended,
           ps2card_is_directory(&e), ps2card_is_locked(&e), (unsigned long)ps2card_name_length(&e));
    print_entry(&e);
}

static void step(const char *path, uint32_t slot) {
    ps2card_entry e;
    size_t page = UNTOUCHED, mended = UNTOUCHED;
    uint32_t found = UNTOUCHED, at = UNTOUCHED, number;
    memset(&e, UNTOUCHED, sizeof e);
    number = ps2card_step_entry(format, image, image_length, text(path), strlen(path), slot, &page, &found, &at, &e,
                                &mended);
    printf("step %lu %lu %lu %lu %lu", (unsigned long)number, (unsigned long)page, (unsigned long)mended,
           (unsigned long)found, (unsigned long)at);
    print_entry(&e);
}

static void read_some(const char *path, size_t offset) {
    uint8_t out[16];
    size_t page = UNTOUCHED, count = UNTOUCHED, mended = UNTOUCHED;
    uint32_t number;
    memset(out, UNTOUCHED, sizeof out);
    number = ps2card_read(format, image, image_length, text(path), strlen(path), offset, out, sizeof out, &page, &count,
                          &mended);
    printf("read %lu %lu %lu %lu ", (unsigned long)number, (unsigned long)page, (unsigned long)mended,
           (unsigned long)count);
    print_hex(out, sizeof out);
    printf("\n");
}

static void list(size_t length, int32_t minutes) {
    static uint8_t out[65536];
    size_t whole = ps2card_list(format, image, length, minutes, out, sizeof out);
    printf("list %lu\n%.*s", (unsigned long)whole, (int)whole, (const char *)out);
}

static void told(const char *name, uint32_t number, size_t page) {
    printf("%s %lu %lu\n", name, (unsigned long)number, (unsigned long)page);
}

static void create(const char *path, const uint8_t *time, const char *bytes) {
    size_t page = UNTOUCHED;
    told("create",
         ps2card_create(format, image, image_length, text(path), strlen(path), time, text(bytes), strlen(bytes), &page),
         page);
}

static void replace(const char *path, const char *bytes) {
    size_t page = UNTOUCHED;
    told("replace",
         ps2card_replace(format, image, image_length, text(path), strlen(path), time_of_change, text(bytes),
                         strlen(bytes), &page),
         page);
}

static void delete_file(const char *path) {
    size_t page = UNTOUCHED;
    told("delete", ps2card_delete(format, image, image_length, text(path), strlen(path), &page), page);
}

static void make_dir(const char *path, const uint8_t *time) {
    size_t page = UNTOUCHED;
    told("make_dir", ps2card_make_dir(format, image, image_length, text(path), strlen(path), time, &page), page);
}

static void remove_dir(const char *path) {
    size_t page = UNTOUCHED;
    told("remove_dir", ps2card_remove_dir(format, image, image_length, text(path), strlen(path), &page), page);
}

/* The first bytes of the image in the other format, into so many bytes; prints also whether any byte was written. */
static void convert(size_t length, size_t out_length) {
    size_t page = UNTOUCHED, at = 0;
    uint32_t number;
    memset(converted, UNTOUCHED, sizeof converted);
    if (format == PS2CARD_RAW) {
        number = ps2card_to_plain(image, length, converted, out_length, &page);
    } else {
        number = ps2card_to_raw(image, length, converted, out_length);
    }
    while (at < sizeof converted && converted[at] == UNTOUCHED) {
        at++;
    }
    printf("convert %lu %lu %d\n", (unsigned long)number, (unsigned long)page, at < sizeof converted);
}

/* Lengths that are wrong, an unreadable page that nothing stands in, and at last the image as it is. */
static size_t conversions(void) {
    size_t bytes = format == PS2CARD_RAW ? 528 : 512, needed = image_length / bytes * (528 + 512 - bytes);
    convert(0, 0);
    convert(image_length - 1, needed);
    convert(image_length, needed - 1);
    convert(image_length, needed + 1);
    convert(image_length, 0);
    image[7 * bytes] ^= 3;
    convert(image_length, needed - 1);
    convert(image_length, needed);
    image[7 * bytes] ^= 3;
    convert(image_length, needed);
    return needed;
}

static int leave(const char *name, const uint8_t *bytes, size_t length) {
    FILE *file = fopen(name, "wb");
    return file && fwrite(bytes, 1, length, file) == length && fclose(file) == 0;
}

int main(int count, char **words) {
    FILE *file;
    size_t needed;
    if (count == 5 && strcmp(words[1], "--plain") == 0) {
        format = PS2CARD_PLAIN;
        count--;
        words++;
    }
    file = count == 4 ? fopen(words[1], "rb") : NULL;
    if (!file) {
        return 2;
    }
    image_length = fread(image, 1, sizeof image, file);
    fclose(file);
    check(image_length);
    check(image_length - 1);
    make_dir("/D", time_of_change);
    make_dir("/D", time_of_change);
    make_dir("/E", no_time);
    create("/D/F", time_of_change, "some bytes of a save");
    create("/D/G", time_of_change, "");
    create("/none/F", time_of_change, "");
    find("/");
    find("/D/F");
    find("/D/H");
    step("/D", 0);
    step("/D", 3);
    step("/D", 4);
    step("/D/F", 0);
    read_some("/D/F", 5);
    read_some("/D/F", 20);
    read_some("/D/F", 21);
    list(image_length, 0);
    list(image_length, PS2CARD_LEAST_MINUTES);
    list(image_length, PS2CARD_MOST_MINUTES);
    list(image_length, PS2CARD_LEAST_MINUTES - 1);
    list(image_length - 1, 0);
    list(image_length - 1, PS2CARD_MOST_MINUTES + 1);
    replace("/D/F", "other bytes");
    replace("/D", "");
    delete_file("/D/G");
    delete_file("/D");
    remove_dir("/D");
    make_dir("/E", time_of_change);
    remove_dir("/E");
    check(image_length);
    list(image_length, 0);
    needed = conversions();
    return leave(words[2], image, image_length) && leave(words[3], converted, needed) ? 0 : 2;
}
