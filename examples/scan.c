/* Reads a phrase book and a letter, and says which phrase ends where: scan BOOK-FILE LETTER-FILE
 *
 *     tools/desk-lib
 *     cc -Iinclude examples/scan.c target/staticlib/libdesk.a -o scan
 */
#include <stdio.h>

#include "tsuvrankhe.h"

static int refused(const char *what, unsigned number, size_t at) {
    fprintf(stderr, "%s refused with %u at %zu\n", what, number, at);
    return 1;
}

int main(int count, char **words) {
    static uint8_t book[16384], part[4096], tables[TSUVRANKHE_TABLE_SIZE], running[TSUVRANKHE_RUNNING_SIZE];
    static uint32_t room[2 * TSUVRANKHE_MOST_PHRASES];
    FILE *from = count == 3 ? fopen(words[1], "rb") : NULL;
    FILE *letter = count == 3 ? fopen(words[2], "rb") : NULL;
    if (from == NULL || letter == NULL) {
        fprintf(stderr, "scan BOOK-FILE LETTER-FILE: which phrase of the book ends where in the letter\n");
        return 2;
    }
    /* No accepted book is as long as this array, so a longer file is refused whatever follows. */
    size_t book_length = fread(book, 1, sizeof book, from);
    struct tsuvrankhe_built built = tsuvrankhe_build(book, book_length, tables, sizeof tables);
    if (built.number != TSUVRANKHE_DONE) return refused("book", built.number, built.offset);
    uint32_t begun = tsuvrankhe_begin(tables, sizeof tables, running, sizeof running);
    if (begun != TSUVRANKHE_DONE) return refused("tables", begun, 0);

    size_t place = 0, part_length;
    while ((part_length = fread(part, 1, sizeof part, letter)) > 0) {
        for (size_t at = 0; at < part_length;) {
            struct tsuvrankhe_fed fed = tsuvrankhe_feed(tables, sizeof tables, running, sizeof running, part + at,
                                                        part_length - at, room, 2 * TSUVRANKHE_MOST_PHRASES);
            if (fed.number != TSUVRANKHE_DONE) return refused("letter", fed.number, place);
            for (size_t i = 0; i < fed.reports; i++) {
                printf("phrase %u ends at place %u\n", (unsigned)room[2 * i], (unsigned)room[2 * i + 1]);
            }
            at += fed.taken;
            place += fed.taken;
        }
    }
    return 0;
}
