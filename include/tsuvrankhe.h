/* Tsuvrankhe: reads letters against an exchanged phrase book and says at which place which phrase ends.
 *
 * Link target/staticlib/libdesk.a, which `tools/desk-lib` makes for x86-64 Linux. It needs memcpy and memset and nothing else: it
 * allocates nothing, prints nothing and has no variables of its own. All memory is the caller's.
 *
 * A desk makes these calls, in this order:
 *
 *     build    once for a phrase book: from its bytes to tables
 *     begin    once for a letter: running memory for these tables
 *     feed     for each part of the letter, as it comes in: reports
 *
 * With a book in `book`, and a part of the letter in `part` (the whole of such a program is examples/scan.c):
 *
 *     static uint8_t tables[TSUVRANKHE_TABLE_SIZE], running[TSUVRANKHE_RUNNING_SIZE];
 *     static uint32_t room[2 * TSUVRANKHE_MOST_PHRASES];
 *     if (tsuvrankhe_build(book, book_length, tables, sizeof tables).number != TSUVRANKHE_DONE) return 1;
 *     if (tsuvrankhe_begin(tables, sizeof tables, running, sizeof running) != TSUVRANKHE_DONE) return 1;
 *     for (size_t at = 0; at < part_length;) {
 *         struct tsuvrankhe_fed fed = tsuvrankhe_feed(tables, sizeof tables, running, sizeof running, part + at, part_length - at, room, 256);
 *         if (fed.number != TSUVRANKHE_DONE) return 1;
 *         for (size_t i = 0; i < fed.reports; i++) printf("phrase %u ends at place %u\n", room[2 * i], room[2 * i + 1]);
 *         at += fed.taken;
 *     }
 *
 * What the caller owes
 *
 * Every call is proved to give a defined answer and to end, whatever the lent bytes are. That proof takes the arguments for what they are
 * declared to be, and nothing checks them:
 *
 *   - A pointer is valid for its length: as many elements can be read there, and written where it is not const, for the whole call.
 *     Lengths are counted in elements: bytes, and for the room numbers of 32 bits.
 *   - A pointer is not null where its length is not 0. Where the length is 0 the pointer is not looked at.
 *   - What is lent to one call does not overlap: not book and tables, nor any two of tables, running memory, part and room.
 *   - The room is aligned for 32 bits. Bytes need no alignment.
 *   - One call at a time on one running memory, and none that reads tables while build writes them. Tables that are built may serve any
 *     number of calls at once, in any number of threads, each with running memory of its own: calls only read them.
 */
#ifndef TSUVRANKHE_H
#define TSUVRANKHE_H

#include <stddef.h>
#include <stdint.h>

#ifdef __cplusplus
extern "C" {
#endif

/* Sizes of this release, in bytes, for arrays; tsuvrankhe_table_size and tsuvrankhe_running_size answer those of the library that is linked. */
#define TSUVRANKHE_TABLE_SIZE 49152
#define TSUVRANKHE_RUNNING_SIZE 10528

/* No book has more phrases. Room for so many reports, two numbers each, is never refused with 10. */
#define TSUVRANKHE_MOST_PHRASES 128

/* The numbers of the phrase book's paper. A call gives the first whose condition holds, in the order said at the call. */
enum tsuvrankhe_number {
    TSUVRANKHE_DONE = 0,
    TSUVRANKHE_TOO_SMALL = 1,  /* build, begin, feed: table memory or running memory is below its size */
    TSUVRANKHE_CUT = 2,        /* build: the book ends inside a record or before the end record is complete */
    TSUVRANKHE_KIND = 3,       /* build: the kind is unknown, or not allowed at this point; any byte after the end record too */
    TSUVRANKHE_FIELD = 4,      /* build: a field is out of its range */
    TSUVRANKHE_CROSSED = 5,    /* build: least is above most */
    TSUVRANKHE_ORDER = 6,      /* build: the phrase number is not above the one before */
    TSUVRANKHE_MANY = 7,       /* build: the 129th phrase, the ninth piece of a phrase or the 257th of the book */
    TSUVRANKHE_TOTAL = 8,      /* build: the end record's number is not the number of phrases */
    TSUVRANKHE_FULL = 9,       /* build: this keyword brings the different prefixes above 2,047 */
    TSUVRANKHE_NO_ROOM = 10,   /* feed: the room is below the number of phrases, even for an empty part */
    TSUVRANKHE_TOO_LONG = 11,  /* feed: the bytes already taken and the whole part offered exceed 4,294,967,295 */
    TSUVRANKHE_NOT_PASSED = 12 /* begin: the tables do not pass the test; feed: the tables or the running memory do not pass it */
};

struct tsuvrankhe_built {
    uint32_t number; /* 0, or why the book is refused: 1 to 9 */
    size_t offset;   /* 0: the book's length; 1: 0; 2 to 9: where the refused record begins, or the book's length where it stops between records */
};

struct tsuvrankhe_fed {
    uint32_t number; /* 0, 1, 10, 11 or 12; with any but 0 the rest is 0 */
    size_t taken;    /* how many bytes of the part were taken, from its first on */
    size_t reports;  /* how many reports stand in the room, from its first number on */
    uint64_t steps;  /* the failure steps of the bytes taken */
};

/* The test of 12: tables that a successful build left always pass, and so does running memory that begin and any later feed left with the same
 * tables; zeroed memory never does. Bytes from elsewhere that pass, and running memory begun with other tables, still get a defined, ended
 * answer, which means nothing. */

/* The published sizes, in bytes. Bytes past them are never touched, so more may be lent. */
size_t tsuvrankhe_table_size(void);
size_t tsuvrankhe_running_size(void);

/* Builds the tables of a book. Answers 0 to 9; looks at 1, and then at record after record, at each at 3 (on the kind alone), 2, 4, 5, 6, 7, 8, 9.
 * Refused with 1, nothing is touched; refused otherwise, the table memory is zero up to its size, which begin and feed answer with 12.
 * What the memory held before does not matter. The book is not needed afterwards. */
struct tsuvrankhe_built tsuvrankhe_build(const uint8_t *book, size_t book_length, uint8_t *tables, size_t tables_length);

/* Begins a letter, at place 0. Answers 0, 1 or 12; looks at 1, then 12. Refused, nothing is touched. What the running memory
 * held before does not matter, so it serves one letter after the other. */
uint32_t tsuvrankhe_begin(const uint8_t *tables, size_t tables_length, uint8_t *running, size_t running_length);

/* Goes on with a part of the letter. Answers 0, 1, 10, 11 or 12; looks at 1, 12, 10, 11, in this order. Refused, nothing is touched.
 *
 * Bytes are taken one by one while any remain and the free room is at least the number of phrases: where fewer were taken than offered, offer
 * the rest again with free room. A report is two numbers, the phrase number and then the place, which is the number of bytes of
 * the letter up to the phrase's end. Reports come by place, then by phrase number, once each. The room past them is unchanged, and an odd last
 * number of the room is never touched. */
struct tsuvrankhe_fed tsuvrankhe_feed(const uint8_t *tables, size_t tables_length, uint8_t *running, size_t running_length,
                                      const uint8_t *part, size_t part_length, uint32_t *room, size_t room_length);

#ifdef __cplusplus
}
#endif

#endif
