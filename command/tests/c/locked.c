/* Makes changes of a card, each by itself on the image as it was read, and prints the number that each answers. Usage:
 * locked [--plain] IMAGE CHANGES; a line of CHANGES is `CALL TIME BYTES PATH`, with 1 for a valid time and 0 for none.
 * Ends with 1 where a refusal left another image or wrote to page. */
#include <stdio.h>
#include <string.h>

#include "ps2card.h"

enum { UNTOUCHED = 77 };

static uint8_t card[PS2CARD_MOST_BYTES], image[PS2CARD_MOST_BYTES], bytes[1 << 20];

static const uint8_t times[2][8] = {{1, 0, 0, 0, 0, 0, 0, 0}, {0, 56, 34, 12, 29, 2, 0xD0, 0x07}};

static uint32_t change(uint32_t format, size_t length, const char *call, const uint8_t *time, size_t count,
                       const char *text, size_t *page) {
    const uint8_t *path = (const uint8_t *)text;
    size_t path_length = strlen(text);
    if (strcmp(call, "create") == 0) {
        return ps2card_create(format, image, length, path, path_length, time, bytes, count, page);
    }
    if (strcmp(call, "replace") == 0) {
        return ps2card_replace(format, image, length, path, path_length, time, bytes, count, page);
    }
    if (strcmp(call, "make_dir") == 0) {
        return ps2card_make_dir(format, image, length, path, path_length, time, page);
    }
    if (strcmp(call, "delete") == 0) {
        return ps2card_delete(format, image, length, path, path_length, page);
    }
    return ps2card_remove_dir(format, image, length, path, path_length, page);
}

int main(int count, char **words) {
    uint32_t format = PS2CARD_RAW, number;
    FILE *file, *changes;
    char call[16], path[300];
    unsigned valid;
    unsigned long size;
    size_t length, page;
    int wrong = 0;
    if (count == 4 && strcmp(words[1], "--plain") == 0) {
        format = PS2CARD_PLAIN;
        count--;
        words++;
    }
    file = count == 3 ? fopen(words[1], "rb") : NULL;
    changes = file ? fopen(words[2], "r") : NULL;
    if (!changes) {
        return 2;
    }
    length = fread(card, 1, sizeof card, file);
    fclose(file);
    while (fscanf(changes, "%15s %u %lu %299s", call, &valid, &size, path) == 4) {
        memcpy(image, card, length);
        page = UNTOUCHED;
        number = change(format, length, call, times[valid != 0], (size_t)size, path, &page);
        wrong |= page != UNTOUCHED || (number != PS2CARD_DONE) != (memcmp(image, card, length) == 0);
        printf("%lu%s\n", (unsigned long)number, number == PS2CARD_LOCKED ? " locked" : "");
    }
    fclose(changes);
    return wrong;
}
