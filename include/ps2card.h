/* ps2card.h: PlayStation 2 memory card images, raw and plain, read and changed by the proved library libps2card.a.
 *
 * Every function is proved to meet its contract for every input: it reads and writes nothing outside what it is lent,
 * takes no memory and ends. docs/example.c is a whole program over this header.
 *
 * Link: x86-64 Linux, any compiler of C99 or C++11:  cc program.c -lps2card
 *   where `./install --prefix DIR` put it:           cc program.c $(pkg-config --cflags --libs ps2card)
 *   The archive needs memcpy, memmove and memset of the C library, and no other.
 *
 * What the caller owes: a pointer with a length lends so many bytes, at any address; a pointer to one number lends that
 *   number, aligned as C asks; time, created and modified are 8 bytes, name is 32 bytes; no two of the things lent
 *   overlap, unless both are only read.
 * NULL: image, path, bytes and out may be NULL where their length is 0. No other pointer may be NULL, page and mended
 *   included.
 * Threads: no state is kept. Calls may run at once, on one image too as long as none of them changes it.
 *
 * format: how the image holds its pages (enum ps2card_format), as the caller says. It is never guessed: some lengths
 *   are a card's in both. A raw page is 512 bytes of data and 16 spare bytes, with the codes that find wrong bits; a
 *   plain one is the 512 bytes alone, as emulators keep them. A cluster is two pages. Answers, refusals and their order
 *   are the same in both formats; but a plain page has no code, so that none is unreadable or corrected.
 * image, image_length: the image, of any content and length. A card has 32 to 65,536 clusters, in steps of 8: an image
 *   of any other length than 1,056 bytes for each of them, or 1,024 where it is plain, is refused. No length is right
 *   for a number that names no format. Every call but the two conversions checks the whole card first; the listing
 *   judges its minutes before that.
 * The check reads the superblock, the table and every directory, but NO FILE DATA: a card that it accepts may have
 *   files with unreadable pages. Only ps2card_read of all of a file's bytes shows that they can be read.
 * mended: how many chunks were corrected in the pages that the call needed, each page counted once. A raw page has four
 *   chunks of 128 bytes, each with its code; one is corrected where a single bit of it or of its code is wrong. All
 *   calls that tell the count need the pages that the check needs: page 0, both pages of the indirect cluster and of
 *   every cluster of the table, and the page of every entry of every directory, its first two and dead ones too. A read
 *   also needs the pages that it copies from. On a plain image the count is 0. NOTHING IS REPAIRED: the image stays as
 *   it is, and the next call corrects the same bits again. Changes and conversions tell no such count.
 * Room: a change takes free clusters, the lowest first. A card of 8,192 clusters has a reserved tail, as on consoles:
 *   its allocatable clusters from index 8,000 on. No other card has a tail. Every card lists its bad erase blocks, of 8
 *   clusters each, in 32 words at 0xD0 of its first page, 0xFFFFFFFF for none. No change takes a new cluster in the
 *   tail or in a listed block: one that the table has as free there, also one that a change has just freed, is held
 *   back and not free. What stands there is read, replaced and deleted as anywhere else.
 * Locked: an entry whose mode lacks PS2CARD_MODE_WRITE, 0x0002. A change is refused (16) where the file or directory
 *   that it replaces, deletes or removes is locked, or the directory directly around its path; nothing farther up or
 *   down counts. A directory is locked by its entry in its parent, the root by its own first entry: those that
 *   ps2card_find hands out. The first two entries of other directories lock nothing. Reading asks for no such bit. No
 *   call locks or unlocks what is there, and what a change makes is not locked.
 * path, path_length: a path on the card as bytes, without a zero at the end: "/" alone, or one to eight names, each
 *   after a "/". A name has 1 to 31 bytes from 0x20 to 0x7E, none of them * / or ?, and is neither "." nor "..". Names
 *   are compared whole: case and blanks count. Directories have one to seven names, files one to eight. So a path has
 *   no more than 256 bytes.
 * time: 8 bytes, as an entry holds them: zero, second, minute, hour, day, month, year in two bytes, low one first; a
 *   date that the calendar has, of the years 1980 to 9999. Cards hold Japan's time (UTC+9, all year), whatever the
 *   console's own zone; the library takes the bytes as they are and asks no clock.
 * minutes: how far the listing's times are ahead of Japan's, or behind them where it is below zero: -1,260 to 300, so
 *   that every zone from UTC-12 to UTC+14 has its own. It is the zone's minutes ahead of UTC less 540: 0 is Japan, -540
 *   is UTC itself.
 *
 * The answer is 0, or the number of a refusal (enum ps2card_refusal). On a refusal the image and every output stay as
 * they were; only number 2 writes the unreadable page's index in the image to page, and nothing else writes to page.
 * A page has the same index in a raw image and in its plain one.
 *
 * Stack: a bound on x86-64 for a function's frame and all below it; a thread of 2 MiB runs every call. Measured by
 * painting the stack, on cards with directories on every level: 1,076 KiB for the calls that check the card,
 * 2 KiB for the conversions; the bound leaves room for another compiler, and a test sees that it holds. The size of the
 * card and the number of its entries do not matter.
 */
#ifndef PS2CARD_H
#define PS2CARD_H

#include <stddef.h>
#include <stdint.h>

#define PS2CARD_VERSION "0.8.0"
/* 10,000 for each major, 100 for each minor version, and the patch. */
#define PS2CARD_VERSION_NUMBER 800

/* Clusters of the largest card. */
#define PS2CARD_MOST_CLUSTERS 65536
/* Bytes of a cluster with its spare bytes, and of the largest card. A plain one is shorter, so that MOST_BYTES is room
 * for either. */
#define PS2CARD_CLUSTER_BYTES 1056
#define PS2CARD_MOST_BYTES (PS2CARD_MOST_CLUSTERS * PS2CARD_CLUSTER_BYTES)
/* The same without spare bytes. */
#define PS2CARD_PLAIN_CLUSTER_BYTES 1024
#define PS2CARD_PLAIN_MOST_BYTES (PS2CARD_MOST_CLUSTERS * PS2CARD_PLAIN_CLUSTER_BYTES)

/* Minutes of a listing: furthest behind Japan, and furthest ahead. */
#define PS2CARD_LEAST_MINUTES (-1260)
#define PS2CARD_MOST_MINUTES 300

/* The formats of an image. */
enum ps2card_format {
    PS2CARD_RAW = 0,  /* pages of 528 bytes: data and spare bytes */
    PS2CARD_PLAIN = 1 /* pages of 512 bytes: data alone */
};

/* The refusals, in their order: of several that apply, the first is told. Number 17, which only the listing tells,
 * comes before all others. Among 1 to 7 the first fault that the check meets on its way is told. The page of a file's
 * data (2, by ps2card_read) comes after all others. The conversions tell 1, 23 and 2 in this order. */
enum ps2card_refusal {
    PS2CARD_DONE = 0,            /* no refusal */
    PS2CARD_BAD_SHIFT = 17,      /* the number of minutes is none from -1,260 to 300 */
    PS2CARD_BAD_LENGTH = 1,      /* the image's length is that of no card */
    PS2CARD_UNREADABLE_PAGE = 2, /* a needed page is damaged beyond correction */
    PS2CARD_BAD_TEXT = 3,        /* the format text differs */
    PS2CARD_BAD_SUPERBLOCK = 4,  /* another superblock rule is broken, or a listed bad block is 0 or beyond the card */
    PS2CARD_BAD_TABLE_NAME = 5,  /* the indirect or a table cluster is wrongly named, or lies in a listed bad block */
    PS2CARD_BAD_CHAIN = 6,       /* a chain of clusters isn't sound */
    PS2CARD_BAD_ENTRY = 7,       /* a directory entry breaks its rule */
    PS2CARD_BAD_PATH = 8,        /* the path is malformed, the root in a change, or eight names for a new directory */
    PS2CARD_BAD_TIME = 14,       /* the time is invalid */
    PS2CARD_ABSENT = 9,          /* a name on the way is absent, or the last one where it must exist */
    PS2CARD_WRONG_KIND = 10,     /* a file stands where a directory is needed, or the reverse */
    PS2CARD_EXISTS = 11,         /* the path to create exists */
    PS2CARD_NOT_EMPTY = 13,      /* the directory to remove has a live entry after its first two */
    PS2CARD_BAD_OFFSET = 15,     /* the read's offset lies beyond the file's length */
    PS2CARD_LOCKED = 16,         /* the file or directory itself, or the directory directly around it, is locked */
    PS2CARD_NO_ROOM = 12,        /* fewer free clusters than needed; those held back are not free */
    PS2CARD_WRONG_OUTPUT = 23    /* the output of a conversion isn't exactly as long as needed */
};

/* Mode bits of an entry. A live one has EXISTS and exactly one of FILE and DIRECTORY; the check judges no other bit. A
 * change asks for WRITE; no call asks for a further one. A new file has the mode 0x8417, a new directory 0x8427. */
enum ps2card_mode {
    PS2CARD_MODE_READ = 0x0001,
    PS2CARD_MODE_WRITE = 0x0002, /* where it is clear, the entry is locked (16) */
    PS2CARD_MODE_EXECUTE = 0x0004,
    PS2CARD_MODE_PROTECTED = 0x0008, /* the console's browser does not copy it */
    PS2CARD_MODE_FILE = 0x0010,
    PS2CARD_MODE_DIRECTORY = 0x0020,
    PS2CARD_MODE_POCKETSTATION = 0x0800,
    PS2CARD_MODE_PSX = 0x1000, /* a save of a PlayStation */
    PS2CARD_MODE_HIDDEN = 0x2000,
    PS2CARD_MODE_EXISTS = 0x8000
};

#ifdef __cplusplus
extern "C" {
#endif

/* Checks the card: its clusters, and how many of the allocatable ones are
 *   free        free in the table, and a change can take them: so many times 1,024 bytes are left
 *   reached     in the chain of a directory or a file
 *   orphaned    not free in the table, and in no chain
 *   held        held back: free in the table, but in the reserved tail or in a bad block, so that no change takes them
 * The four add up to the allocatable clusters. mended tells how many chunks were corrected in the pages that the check
 * needs.
 * Refusals: 1 to 7. Untouched on a refusal: clusters, free, reached, orphaned, held, mended.
 * Stack: at most 1,200 KiB. */
uint32_t ps2card_check(uint32_t format, const uint8_t *image, size_t image_length, size_t *page, uint32_t *clusters,
                       size_t *free, size_t *reached, size_t *orphaned, size_t *held, size_t *mended);

/* Finds the entry at a path, for the root its first one, and hands out its fields: ps2card_find_entry below has them as
 * a struct. mended tells the same as that of the check.
 * Refusals: 1 to 10. Untouched on a refusal: every field and mended.
 * Stack: at most 1,200 KiB. */
uint32_t ps2card_find(uint32_t format, const uint8_t *image, size_t image_length, const uint8_t *path,
                      size_t path_length, size_t *page, uint16_t *mode, uint32_t *length, uint8_t *created,
                      uint32_t *first, uint32_t *dir_entry, uint8_t *modified, uint32_t *attribute, uint8_t *name,
                      size_t *mended);

/* Finds the first live entry of a directory from a slot on, never before slot 2: found is 1, at its slot, and its
 * fields are handed out, by ps2card_step_entry below as a struct. At the end found is 0, and at and the fields stay as
 * they were. mended tells the same as that of the check, at the end too.
 * Refusals: 1 to 10. Untouched on a refusal: found, at, every field and mended.
 * Stack: at most 1,200 KiB. */
uint32_t ps2card_step(uint32_t format, const uint8_t *image, size_t image_length, const uint8_t *path,
                      size_t path_length, uint32_t slot, size_t *page, uint32_t *found, uint32_t *at, uint16_t *mode,
                      uint32_t *length, uint8_t *created, uint32_t *first, uint32_t *dir_entry, uint8_t *modified,
                      uint32_t *attribute, uint8_t *name, size_t *mended);

/* Copies a file's bytes from an offset on into out, until the file or out ends; count tells how many. The rest of out
 * stays as it was. mended tells the same as that of the check, and besides how many chunks were corrected in the pages
 * that the bytes came from: none where count is 0.
 * Refusals: 1 to 10, 15; 2 also for a page with a byte to copy. Untouched on a refusal: out, count and mended.
 * Stack: at most 1,200 KiB. */
uint32_t ps2card_read(uint32_t format, const uint8_t *image, size_t image_length, const uint8_t *path,
                      size_t path_length, size_t offset, uint8_t *out, size_t out_length, size_t *page, size_t *count,
                      size_t *mended);

/* Writes the listing into out, as much of it as fits, its times shifted by so many minutes. The answer is the whole
 * text's length, without a zero at the end: a call with out_length 0 tells how much room it needs. The rest of out
 * stays as it was. The lines, each with a newline at its end:
 *   card CLUSTERS
 *   free COUNT
 *   reached COUNT
 *   orphaned COUNT
 *   held COUNT
 *   mended COUNT
 *   d ENTRIES PATH YYYY-MM-DD hh:mm:ss    a directory; its first two entries and dead ones count too
 *   f BYTES PATH YYYY-MM-DD hh:mm:ss      a file
 * the last two for each entry in tree order: slot order, a directory before its inside; the root has no line. Such a
 * line has no more than 290 bytes, its newline included. The time is that of the last change; where the entry holds no
 * valid time, at 0 minutes too, or the shifted one is not of the years 1980 to 9999, the word unknown stands for it.
 * Names may have blanks, and end in what looks like a time or in that word: take a line apart from its end. If it ends
 * in " unknown", the path is what stands before that; if not, the last 20 bytes are a blank and the time.
 * On a refusal the text is one line, "refused N" or "refused 2 PAGE".
 * Refusals: 17 before all others, whatever format and image are; 1 to 7.
 * Stack: at most 1,200 KiB. */
size_t ps2card_list(uint32_t format, const uint8_t *image, size_t image_length, int32_t minutes, uint8_t *out,
                    size_t out_length);

/* Creates a file with these bytes at a path; both its times become the given one.
 * Refusals: 1 to 12, 14, 16. Untouched on a refusal: the whole image.
 * Stack: at most 1,200 KiB. */
uint32_t ps2card_create(uint32_t format, uint8_t *image, size_t image_length, const uint8_t *path, size_t path_length,
                        const uint8_t *time, const uint8_t *bytes, size_t bytes_length, size_t *page);

/* Replaces the bytes of the file at a path; its time of change becomes the given one. The new bytes need room beside
 * the old ones.
 * Refusals: 1 to 10, 12, 14, 16. Untouched on a refusal: the whole image.
 * Stack: at most 1,200 KiB. */
uint32_t ps2card_replace(uint32_t format, uint8_t *image, size_t image_length, const uint8_t *path, size_t path_length,
                         const uint8_t *time, const uint8_t *bytes, size_t bytes_length, size_t *page);

/* Deletes the file at a path.
 * Refusals: 1 to 10, 16. Untouched on a refusal: the whole image.
 * Stack: at most 1,200 KiB. */
uint32_t ps2card_delete(uint32_t format, uint8_t *image, size_t image_length, const uint8_t *path, size_t path_length,
                        size_t *page);

/* Makes an empty directory at a path of one to seven names; its times become the given one.
 * Refusals: 1 to 12, 14, 16. Untouched on a refusal: the whole image.
 * Stack: at most 1,200 KiB. */
uint32_t ps2card_make_dir(uint32_t format, uint8_t *image, size_t image_length, const uint8_t *path, size_t path_length,
                          const uint8_t *time, size_t *page);

/* Removes the directory at a path, which must have no live entry after its first two.
 * Refusals: 1 to 10, 13, 16. Untouched on a refusal: the whole image.
 * Stack: at most 1,200 KiB. */
uint32_t ps2card_remove_dir(uint32_t format, uint8_t *image, size_t image_length, const uint8_t *path,
                            size_t path_length, size_t *page);

/* Writes the plain image of a raw one: out becomes the data of every page as read, single wrong bits corrected; the
 * spare bytes are lost. out must have exactly 512 bytes for each page of 528. Only lengths and pages are judged: what
 * the pages hold need not be a card.
 * Refusals: 1, 23, then 2 for the first unreadable page of all, whether or not a file or a directory uses it. Untouched
 * on a refusal: out.
 * Stack: at most 4 KiB. */
uint32_t ps2card_to_plain(const uint8_t *image, size_t image_length, uint8_t *out, size_t out_length, size_t *page);

/* Writes the raw image of a plain one: out becomes each page's data with its codes, and zero in the four spare bytes
 * after them. out must have exactly 528 bytes for each page of 512. Only lengths are judged.
 * Refusals: 1, 23. Untouched on a refusal: out.
 * Stack: at most 4 KiB. */
uint32_t ps2card_to_raw(const uint8_t *image, size_t image_length, uint8_t *out, size_t out_length);

#ifdef __cplusplus
}
#endif

/* The same with structs. */

/* What the check counts. */
typedef struct ps2card_counts {
    uint32_t clusters;
    size_t free, reached, orphaned, held, mended;
} ps2card_counts;

/* A directory entry. */
typedef struct ps2card_entry {
    uint32_t length;    /* a file's bytes; a directory's entries, its first two and dead ones too */
    uint32_t first;     /* first cluster, from the first allocatable one on; 0xFFFFFFFF for an empty file */
    uint32_t dir_entry; /* in a directory's own first entry: its slot in the parent */
    uint32_t attribute;
    uint16_t mode;      /* enum ps2card_mode */
    uint8_t created[8]; /* both times may be any bytes: a change judges its own time, the check none */
    uint8_t modified[8];
    uint8_t name[32];   /* the name, a zero, and whatever follows it */
} ps2card_entry;

/* ps2card_check with its counts. Untouched on a refusal: counts. */
static inline uint32_t ps2card_check_counts(uint32_t format, const uint8_t *image, size_t image_length, size_t *page,
                                            ps2card_counts *counts) {
    return ps2card_check(format, image, image_length, page, &counts->clusters, &counts->free, &counts->reached,
                         &counts->orphaned, &counts->held, &counts->mended);
}

/* ps2card_find with an entry. Untouched on a refusal: entry and mended. */
static inline uint32_t ps2card_find_entry(uint32_t format, const uint8_t *image, size_t image_length,
                                          const uint8_t *path, size_t path_length, size_t *page, ps2card_entry *entry,
                                          size_t *mended) {
    return ps2card_find(format, image, image_length, path, path_length, page, &entry->mode, &entry->length,
                        entry->created, &entry->first, &entry->dir_entry, entry->modified, &entry->attribute,
                        entry->name, mended);
}

/* ps2card_step with an entry. Untouched on a refusal: found, at, entry and mended; at the end: at and entry. */
static inline uint32_t ps2card_step_entry(uint32_t format, const uint8_t *image, size_t image_length,
                                          const uint8_t *path, size_t path_length, uint32_t slot, size_t *page,
                                          uint32_t *found, uint32_t *at, ps2card_entry *entry, size_t *mended) {
    return ps2card_step(format, image, image_length, path, path_length, slot, page, found, at, &entry->mode,
                        &entry->length, entry->created, &entry->first, &entry->dir_entry, entry->modified,
                        &entry->attribute, entry->name, mended);
}

/* Whether an entry is a directory; what find and step hand out is a file otherwise. */
static inline int ps2card_is_directory(const ps2card_entry *entry) {
    return (entry->mode & PS2CARD_MODE_DIRECTORY) != 0;
}

/* Whether an entry is locked. */
static inline int ps2card_is_locked(const ps2card_entry *entry) {
    return (entry->mode & PS2CARD_MODE_WRITE) == 0;
}

/* The length of an entry's name. */
static inline size_t ps2card_name_length(const ps2card_entry *entry) {
    size_t length = 0;
    while (length < sizeof entry->name && entry->name[length] != 0) {
        length++;
    }
    return length;
}

#endif
