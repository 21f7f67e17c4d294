/* Prints how many bytes of stack each function of ps2card.h uses on a card: each call runs on a painted stack.
 * Usage: stack [--plain] IMAGE. */
#define _XOPEN_SOURCE 700
#include <pthread.h>
#include <stdio.h>
#include <stdlib.h>
#include <string.h>

#include "ps2card.h"

enum { STACK = 4 << 20, PAINT = 0xA5 };

static uint32_t format = PS2CARD_RAW;
static uint8_t image[PS2CARD_MOST_BYTES], work[PS2CARD_MOST_BYTES], other[PS2CARD_MOST_BYTES], bytes[300000];
static size_t image_length, pages;

static const uint8_t time_of_change[8] = {0, 56, 34, 12, 29, 2, 0xD0, 0x07};

/* What the calls write. */
static struct {
    size_t page, a, b, c, d, mended;
    uint32_t clusters, found, at, length, first, dir_entry, attribute;
    uint16_t mode;
    uint8_t created[8], modified[8], name[32];
} out;

/* The directories at six and at seven names, which is as deep as they go. */
#define ABOVE "/a/b/c/d/e/f"
#define DEEPEST ABOVE "/g"

#define PATH(text) (const uint8_t *)(text), sizeof(text) - 1

static uint32_t check(void) {
    return ps2card_check(format, work, image_length, &out.page, &out.clusters, &out.a, &out.b, &out.c, &out.d,
                         &out.mended);
}
static uint32_t find(void) {
    return ps2card_find(format, work, image_length, PATH(DEEPEST "/file"), &out.page, &out.mode, &out.length, out.created,
                        &out.first, &out.dir_entry, out.modified, &out.attribute, out.name, &out.mended);
}
static uint32_t step(void) {
    return ps2card_step(format, work, image_length, PATH(DEEPEST), 2, &out.page, &out.found, &out.at, &out.mode,
                        &out.length, out.created, &out.first, &out.dir_entry, out.modified, &out.attribute, out.name,
                        &out.mended);
}
static uint32_t read_file(void) {
    return ps2card_read(format, work, image_length, PATH(DEEPEST "/file"), 1, bytes, sizeof bytes, &out.page, &out.a,
                        &out.mended);
}
static uint32_t list(void) {
    return ps2card_list(format, work, image_length, PS2CARD_LEAST_MINUTES, bytes, sizeof bytes) == 0;
}
static uint32_t create(void) {
    return ps2card_create(format, work, image_length, PATH(DEEPEST "/new"), time_of_change, bytes, sizeof bytes,
                          &out.page);
}
static uint32_t replace(void) {
    return ps2card_replace(format, work, image_length, PATH(DEEPEST "/file"), time_of_change, bytes, sizeof bytes,
                           &out.page);
}
static uint32_t delete_file(void) {
    return ps2card_delete(format, work, image_length, PATH(DEEPEST "/file"), &out.page);
}
static uint32_t make_dir(void) {
    return ps2card_make_dir(format, work, image_length, PATH(ABOVE "/new"), time_of_change, &out.page);
}
static uint32_t remove_dir(void) {
    return ps2card_remove_dir(format, work, image_length, PATH(ABOVE "/empty"), &out.page);
}

/* One of the two takes the image, the other what becomes of it. */
static uint32_t to_plain(void) {
    return format == PS2CARD_RAW ? ps2card_to_plain(work, 528 * pages, other, 512 * pages, &out.page)
                                 : ps2card_to_plain(other, 528 * pages, work, 512 * pages, &out.page);
}
static uint32_t to_raw(void) {
    return format == PS2CARD_RAW ? ps2card_to_raw(other, 512 * pages, work, 528 * pages)
                                 : ps2card_to_raw(work, 512 * pages, other, 528 * pages);
}

static const struct {
    const char *name;
    uint32_t (*call)(void);
} calls[] = {{"check", check},           {"find", find},          {"step", step},
             {"read", read_file},        {"list", list},          {"create", create},
             {"replace", replace},       {"delete", delete_file}, {"make_dir", make_dir},
             {"remove_dir", remove_dir}, {"to_plain", to_plain},  {"to_raw", to_raw}};

/* One call in a thread of its own: paints the stack below this frame, calls, and looks how far the paint is gone. */
static uint8_t *lowest;
static size_t chosen, used;
static uint32_t number;

static void *measure(void *nothing) {
    volatile uint8_t here = 0;
    size_t room = (size_t)((uint8_t *)(uintptr_t)&here - lowest) - 512, low = 0;
    memset(lowest, PAINT, room);
    number = calls[chosen].call();
    while (low < room && lowest[low] == PAINT) {
        low++;
    }
    used = room + 512 - low;
    return nothing;
}

int main(int count, char **words) {
    FILE *file;
    pthread_attr_t attributes;
    pthread_t thread;
    void *stack;
    if (count == 3 && strcmp(words[1], "--plain") == 0) {
        format = PS2CARD_PLAIN;
        count--;
        words++;
    }
    file = count == 2 ? fopen(words[1], "rb") : NULL;
    if (!file || posix_memalign(&stack, 4096, STACK)) {
        return 2;
    }
    lowest = stack;
    image_length = fread(image, 1, sizeof image, file);
    fclose(file);
    pages = image_length / (format == PS2CARD_RAW ? 528 : 512);
    memcpy(work, image, image_length);
    if ((format == PS2CARD_RAW ? to_plain() : to_raw()) != PS2CARD_DONE) {
        return 2;
    }
    pthread_attr_init(&attributes);
    pthread_attr_setstack(&attributes, lowest, STACK);
    for (chosen = 0; chosen < sizeof calls / sizeof *calls; chosen++) {
        memcpy(work, image, image_length);
        if (pthread_create(&thread, &attributes, measure, NULL) || pthread_join(thread, NULL)) {
            return 2;
        }
        printf("%s %lu %lu\n", calls[chosen].name, (unsigned long)number, (unsigned long)used);
    }
    return 0;
}
