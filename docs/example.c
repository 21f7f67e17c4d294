/* A whole program over ps2card.h: checks a card, shows its saves, puts a note on it and writes the changed card to a new
 * file. The image that it is given stays as it is. It is raw, or after --plain without spare bytes.
 *
 *   ./install --prefix "$HOME/ps2card"
 *   cc -o example docs/example.c $(PKG_CONFIG_PATH="$HOME/ps2card/lib/pkgconfig" pkg-config --cflags --libs ps2card)
 *   ./example samples/bench.ps2 changed.ps2
 *
 * Exit status: 0 done, 1 refused by the library, 2 wrong usage or a file that cannot be read or written. */
#include <stdio.h>
#include <stdlib.h>
#include <string.h>
#include <time.h>

#include <ps2card.h>

/* What the caller says, and nobody can see in the bytes. */
static uint32_t format = PS2CARD_RAW;

/* One byte more than the largest card, so that a longer file is refused and not cut. */
static uint8_t image[PS2CARD_MOST_BYTES + 1];
static size_t image_length;

/* Strings as the library takes paths and bytes: without the zero at the end. */
#define TEXT(string) (const uint8_t *)(string), strlen(string)

/* Ends the program where a call was refused. */
static void accepted(const char *doing, uint32_t number, size_t page) {
    if (number == PS2CARD_UNREADABLE_PAGE) {
        fprintf(stderr, "%s: refused 2, page %lu\n", doing, (unsigned long)page);
    } else if (number != PS2CARD_DONE) {
        fprintf(stderr, "%s: refused %lu\n", doing, (unsigned long)number);
    }
    if (number != PS2CARD_DONE) {
        exit(1);
    }
}

/* The time now in Japan, as a card holds it. */
static void time_in_japan(uint8_t *bytes) {
    time_t now = time(NULL) + 9 * 3600;
    const struct tm *date = gmtime(&now);
    int year = date->tm_year + 1900;
    bytes[0] = 0;
    bytes[1] = (uint8_t)(date->tm_sec > 59 ? 59 : date->tm_sec);
    bytes[2] = (uint8_t)date->tm_min;
    bytes[3] = (uint8_t)date->tm_hour;
    bytes[4] = (uint8_t)date->tm_mday;
    bytes[5] = (uint8_t)(date->tm_mon + 1);
    bytes[6] = (uint8_t)(year % 256);
    bytes[7] = (uint8_t)(year / 256);
}

/* The entries of a directory, by steps from slot to slot. */
static void show_directory(const char *path) {
    ps2card_entry entry;
    uint32_t slot = 2, found = 0;
    size_t page = 0, mended;
    for (;;) {
        accepted(path,
                 ps2card_step_entry(format, image, image_length, TEXT(path), slot, &page, &found, &slot, &entry,
                                    &mended),
                 page);
        if (!found) {
            return;
        }
        printf("%s %lu %.*s%s\n", ps2card_is_directory(&entry) ? "directory" : "file", (unsigned long)entry.length,
               (int)ps2card_name_length(&entry), (const char *)entry.name,
               ps2card_is_locked(&entry) ? " (locked)" : "");
        slot++;
    }
}

/* Puts a file on the card and reads it back. */
static void put_note(void) {
    static const char note[] = "Written by the example of ps2card.h.\n";
    uint8_t now[8], back[sizeof note];
    size_t page = 0, count = 0, mended;
    time_in_japan(now);
    accepted("make /EXAMPLE", ps2card_make_dir(format, image, image_length, TEXT("/EXAMPLE"), now, &page), page);
    accepted("create", ps2card_create(format, image, image_length, TEXT("/EXAMPLE/NOTE"), now, TEXT(note), &page),
             page);
    accepted("read",
             ps2card_read(format, image, image_length, TEXT("/EXAMPLE/NOTE"), 0, back, sizeof back, &page, &count,
                          &mended),
             page);
    printf("note %s\n", count == strlen(note) && memcmp(back, note, count) == 0 ? "kept" : "differs");
}

/* The listing, in Japan's time: asked for its length first. An accepted card has at least its counts. */
static void show_listing(void) {
    size_t length = ps2card_list(format, image, image_length, 0, NULL, 0);
    uint8_t *text = (uint8_t *)malloc(length);
    if (text == NULL) {
        exit(2);
    }
    ps2card_list(format, image, image_length, 0, text, length);
    fwrite(text, 1, length, stdout);
    free(text);
}

int main(int count, char **words) {
    FILE *file;
    ps2card_counts counts;
    size_t page = 0;
    if (count > 1 && strcmp(words[1], "--plain") == 0) {
        format = PS2CARD_PLAIN;
        count--;
        words++;
    }
    file = count == 3 ? fopen(words[1], "rb") : NULL;
    if (file == NULL) {
        fprintf(stderr, "usage: example [--plain] IMAGE NEW-IMAGE (ps2card %s)\n", PS2CARD_VERSION);
        return 2;
    }
    image_length = fread(image, 1, sizeof image, file);
    fclose(file);

    accepted("check", ps2card_check_counts(format, image, image_length, &page, &counts), page);
    printf("%lu clusters, %lu free, %lu held back, %lu chunks mended\n", (unsigned long)counts.clusters,
           (unsigned long)counts.free, (unsigned long)counts.held, (unsigned long)counts.mended);
    show_directory("/");
    put_note();
    show_listing();

    file = fopen(words[2], "wb");
    if (file == NULL || fwrite(image, 1, image_length, file) != image_length || fclose(file) != 0) {
        fprintf(stderr, "example: cannot write %s\n", words[2]);
        return 2;
    }
    return 0;
}
