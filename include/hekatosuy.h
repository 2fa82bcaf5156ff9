/*
 * Hekatosuy: records in pages of 16,384 bytes.
 *
 * A segment is a run of 0 to 32,527 whole pages and its inventory is one page more. Both are lent to each call and hold everything
 * between calls. A segment of zeros with an inventory of zeros is empty and ready for use, and a segment grows by being lent with more
 * pages of zeros at its end and the same inventory. The library keeps nothing itself, allocates nothing, and of the C library it calls
 * memcpy and memset alone.
 *
 * A record has 0 to 16,364 bytes and an id, page * 65,536 + slot, which stays the same until the record is erased.
 *
 * Each function is proved to meet its contract (crates/hekatosuy_c): for every segment, inventory and argument it answers one of the
 * numbers below and leaves each byte as the contract says. A call that is refused leaves segment, inventory, tally, an export's place and
 * the words for whole readings as they were; only hk_insert_records and hk_import, refused at one of their rows, leave what the rows before
 * it changed, and nothing else.
 *
 * The pointer before a length or a count points to so many bytes (lengths, ids, entries and words: to so many uint64_t), and no pointer is
 * null, also where the length or the count is 0. What one call is lent to write (segment, inventory, ids, entries, words, the tally, the
 * place for an export's file and the single numbers) overlaps nothing else that it is lent.
 *
 * A program, whole:
 *
 *     #include "hekatosuy.h"
 *     #include <stdio.h>
 *     #include <stdlib.h>
 *
 *     int main(void) {
 *         size_t length = 4 * HK_PAGE_SIZE;
 *         uint8_t *segment = (uint8_t *)calloc(4, HK_PAGE_SIZE), *inventory = (uint8_t *)calloc(1, HK_PAGE_SIZE);
 *         const uint8_t row[] = {3, 1, 4};
 *         uint64_t id, offset, size, found, position = 0;
 *         if (segment == NULL || inventory == NULL) return 1;
 *         if (hk_insert_record(segment, length, inventory, HK_PAGE_SIZE, row, sizeof row, &id) != HK_DONE) return 1;
 *         if (hk_get_record(segment, length, id, &offset, &size) != HK_DONE) return 1;
 *         printf("the last of %d bytes is %d\n", (int)size, segment[offset + size - 1]);
 *         while (hk_scan_step(segment, length, &position, &found, &id, &offset, &size) == HK_DONE && found)
 *             printf("page %d slot %d: %d bytes\n", (int)(id / 65536), (int)(id % 65536), (int)size);
 *         return 0;
 *     }
 *
 * `./archive` writes the archive, x86-64 code for Linux, to target/staticlib/libhekatosuy.a, and
 * `cc -Iinclude prog.c target/staticlib/libhekatosuy.a` links with it. examples/store_in_file.c keeps a store in a file.
 */
#ifndef HEKATOSUY_H
#define HEKATOSUY_H

#include <stddef.h>
#include <stdint.h>

#ifdef __cplusplus
extern "C" {
#endif

enum {
    HK_PAGE_SIZE = 16384,       /* bytes of a page, and of the inventory */
    HK_MAX_PAGES = 32527,       /* pages of a segment, at most */
    HK_MAX_RECORD_SIZE = 16364  /* bytes of a record, at most */
};

/*
 * What a call answers. Where several refusals hold, this is their order: 1, 10, 3, 2, 4 for the id's own page, 5, 6, 4 for a target, 7,
 * 4 for a new page, 8. Of many rows 1 and 10 come before any row, and then each row in its turn. hk_import has 1, then for each record of
 * the file in its turn 13, 12, 3, 13, all before any insert, and then each insert's own. hk_fill_report has 1, 4 for any page, 9;
 * hk_export 1, 4 for any page, 11; hk_cleared 1, 14, 4 for any page, and hk_whole_readings then 11; and hk_repair answers 0, 1 or 11.
 */
enum {
    HK_DONE = 0,      /* the call is carried out */
    HK_SIZE = 1,      /* segment not 0 to 32,527 whole pages, or inventory not 16,384 bytes */
    HK_NOPAGE = 2,    /* the segment has no page of the id's number */
    HK_LONG = 3,      /* new size above 16,364; import: data above 16,356, which is the same */
    HK_DAMAGED = 4,   /* a page to be touched is not sound, or a redirect to be followed lacks its target pointing back */
    HK_NONE = 5,      /* the id's slot is at or past the page's slot count, or free */
    HK_FORWARDED = 6, /* write, resize or erase by the id of the place that a record was moved to, and not by its own */
    HK_FULL = 7,      /* the inventory names no page with so much room */
    HK_STALE = 8,     /* the inventory names a page that has not the room: it is not true */
    HK_TALLY = 9,     /* fill report: a figure of the tally would pass 2^64 - 1 */
    HK_LIST = 10,     /* many rows: the lengths don't sum to the bytes, or there are fewer id places than rows */
    HK_ROOM = 11,     /* what is to be written does not fit in the place lent for it: repair's entries, an export's file, whole readings */
    HK_MARK = 12,     /* import: a record of the file does not begin with 52 54 */
    HK_SHORT = 13,    /* import: the file ends within a record */
    HK_RULE = 14      /* another edition than 1 and 2, or rows outside 1 to 2,048 */
};

/* A new record with these bytes. Its id is written when the answer is 0, and else left as it was. */
uint64_t hk_insert_record(uint8_t *segment, size_t segment_length, uint8_t *inventory, size_t inventory_length,
                          const uint8_t *record, size_t record_length, uint64_t *id);

/*
 * New records with these bytes: the rows stand end to end in `rows`, and `lengths` has the length of each. The id of each is written to
 * its place in `ids`, which may have more places than there are rows. A row of no bytes is a row.
 *
 * It equals hk_insert_record of one row after the other: the same answers, the same ids, and every byte of segment and inventory, in
 * damaged segments and with untrue inventories too. A page that many rows go to is not checked anew for each of them.
 *
 * It stops at the first row that is refused, and its answer is that row's: `inserted` tells how many went in, these stay, and later
 * places of `ids` keep what they were. After 7 it can go on with the refused row, its bytes, its length and its place, lent more pages.
 *
 * `inserted` is written on every answer. With 0 it is the number of rows. An empty list without bytes answers 0 and changes nothing.
 *
 * Refusals: 1; then 10, where the lengths don't sum to `rows_length` (the sum is a number of any size, it does not wrap) or there are
 * fewer id places than rows; with 1 and 10 `inserted` is 0 and nothing is changed. Then the row's own: 3, 7, 4, 8.
 */
uint64_t hk_insert_records(uint8_t *segment, size_t segment_length, uint8_t *inventory, size_t inventory_length,
                           const uint8_t *rows, size_t rows_length, const uint64_t *lengths, size_t lengths_count,
                           uint64_t *ids, size_t ids_count, uint64_t *inserted);

/* A new record of so many zeros. Its id is written when the answer is 0, and else left as it was. */
uint64_t hk_allocate(uint8_t *segment, size_t segment_length, uint8_t *inventory, size_t inventory_length, uint64_t size,
                     uint64_t *id);

/*
 * Where the record lies: its first byte, counted from the start of the segment, and its length; 0 and 0 on refusal. The place is good
 * until the next call that writes.
 */
uint64_t hk_get_record(const uint8_t *segment, size_t segment_length, uint64_t id, uint64_t *offset, uint64_t *length);

/* The record gets these bytes, and their length. */
uint64_t hk_write_record(uint8_t *segment, size_t segment_length, uint8_t *inventory, size_t inventory_length, uint64_t id,
                         const uint8_t *record, size_t record_length);

/* The record gets this length: cut off, or filled up with zeros. */
uint64_t hk_resize_record(uint8_t *segment, size_t segment_length, uint8_t *inventory, size_t inventory_length, uint64_t id,
                          uint64_t size);

/* The record is gone, and its id may be given again. */
uint64_t hk_erase_record(uint8_t *segment, size_t segment_length, uint8_t *inventory, size_t inventory_length, uint64_t id);

/*
 * The next record of a scan. `position` is 0 at first and afterwards what the last step left there. With a record `found` is 1, and id,
 * offset and length are those of the record, as hk_get_record tells them. Without one all four are 0 and the scan is over: at the end if
 * the answer is 0; a segment of wrong size answers 1, and a damaged page 4 when the scan reaches it. Every further step over the same
 * segment answers 0 without a record, and after 1 or 4 over any segment.
 *
 * A position is a page and a slot, and nothing more. If you write between two steps, the next step goes on from there over what stands
 * then. A record that you insert ahead of the position comes, and one that you erase does not. A record that a write moves to another page,
 * or back to its own, may come twice or not at all. A scan that has ended goes on if it is then lent more pages. A page is checked when
 * the scan reaches it and not again inside it; there a record that does not lie as on a sound page, or a slot count above 2,046,
 * answers 4.
 */
uint64_t hk_scan_step(const uint8_t *segment, size_t segment_length, uint64_t *position, uint64_t *found, uint64_t *id,
                      uint64_t *offset, uint64_t *length);

/*
 * Figures over any number of segments: 23 numbers, 184 bytes, in this order. Set all to 0 before the first segment. A page is fresh, when
 * its header is zeros or just initialised, or in use, also when all its records were erased.
 */
typedef struct hk_tally {
    uint64_t pages;        /* all pages */
    uint64_t fresh_pages;  /* pages that are fresh */
    uint64_t slots;        /* slots of pages in use: with a record, free, or with the id of the place that a record was moved to */
    uint64_t records;      /* records, those that a scan gives */
    uint64_t record_bytes; /* bytes of all records, without the id of 8 bytes that stands before each forwarded one */
    uint64_t forwarded;    /* records that lie on another page than that of their id */
    uint64_t free_bytes;   /* free bytes of pages in use */
    uint64_t classes[16];  /* pages of each class 0 to 15, as the inventory has them: 0 for fresh ones, 15 for the fullest */
} hk_tally;

/*
 * Adds the figures of one segment to the tally, where it stands. Lent to one call after the other it has the sum over all their segments,
 * whatever their order. A segment that is refused adds nothing: all 23 figures keep what they were.
 *
 * Each figure is counted for itself, and from the pages alone: no inventory is looked at. For pages in use they sum to the bytes: 12 each,
 * 8 for each slot, the record bytes, 8 for each forwarded record and the free bytes are 16,384 a page. The classes sum to the pages,
 * class 0 is the fresh ones, and no page is of class 1.
 *
 * Refusals: 1 by the segment's size; then 4, where any page is not sound; then 9. A figure to which nothing is added is never the cause of
 * 9. What the tally holds before is not looked into, any numbers will do. A forwarded record is counted where it lies: no redirect is
 * followed, and whether each leads to its record is told by hk_repair with a list of no words.
 */
uint64_t hk_fill_report(const uint8_t *segment, size_t segment_length, hk_tally *tally);

/*
 * The records of an exchange file, in its order, as new records. Such a file is any number of records end to end and nothing else, each
 * 52 54, mirror (4 bytes), reading (2), row (2), length of the data (2), all big-endian, and then the data, 0 to 16,356 bytes. The store's
 * record is the 8 bytes of mirror, reading and row and then the data; what they mean plays no part.
 *
 * The file is read through before anything is inserted. Then it equals hk_insert_records of the same records, without places for ids: it
 * stops at the first record that is refused, and its answer is that record's; `inserted` tells how many went in, and these stay, beside
 * what the segment had before. After 7 it can go on, lent more pages, with the part of the file that begins with the refused record.
 *
 * `inserted` is written on every answer. With 0 it is the number of the file's records. A file of no bytes answers 0 and changes nothing.
 *
 * Refusals: 1; then, for each record of the file in its turn, 13 where fewer than 12 bytes are left, 12, 3, and 13 where the data is cut
 * off; with all these `inserted` is 0 and nothing is changed. Then the insert's own: 7, 4, 8.
 */
uint64_t hk_import(uint8_t *segment, size_t segment_length, uint8_t *inventory, size_t inventory_length, const uint8_t *file,
                   size_t file_length, uint64_t *inserted);

/*
 * All readings as an exchange file: the records as a scan gives them, in its order, a forwarded record where it lies and without the id of
 * 8 bytes before it. A record under 8 bytes is no reading, and is passed over; one of 8 bytes is a reading without data. No redirect is
 * followed.
 *
 * With 0 and with 11 `length` is the length of the file and `passed` the number of records that are passed over; with 1 and 4 both are 0.
 * With 0 the first `length` bytes of `file` are written, and those behind them stay. So an export into a place of no bytes asks for the
 * length. As much room as the segment has is enough.
 *
 * What is exported is never refused as a file. Imported into pages of zeros and an inventory of zeros, where all of it goes in, it gives
 * the same readings, each as often as before; their ids and their order may differ, and as many pages as before may be too few.
 *
 * Refusals: 1 by the segment's size; then 4, where any page is not sound; then 11, where the file is longer than `file_room`. Nothing is
 * written to `file` then.
 */
uint64_t hk_export(const uint8_t *segment, size_t segment_length, uint8_t *file, size_t file_room, uint64_t *length, uint64_t *passed);

/*
 * Whether the mirror is cleared for polishing: 1 or 0, and 0 on refusal. A reading is whole when each row from 0 to rows - 1 is there
 * once and no other. Edition 1: two whole readings. Edition 2: three, at least one numbered below 32,768 and one from there on.
 * Refusals: 1, 14, 4.
 *
 * Judged are the records of 8 bytes or more that a scan gives, as hk_import stores them: mirror (4 bytes), reading (2) and row (2), all
 * big-endian, and data that plays no part. A shorter record neither helps nor spoils. A row that is there twice spoils its reading, with
 * equal data too, and so does a row from `rows` on. No redirect is followed. No record has a mirror of 2^32 or more: such a one is not
 * cleared, and that is no refusal.
 *
 * The answer is 1 exactly then. All pages are checked before it is given: one that is not sound is 4, whatever the others hold. A mirror
 * that is cleared stays so with more whole readings, though a further record may spoil one. What edition 2 clears edition 1 clears. The
 * answer hangs on the readings alone, each as often as it is there: so it is the same after an export and an import into pages of zeros,
 * where all of it goes in.
 */
uint64_t hk_cleared(const uint8_t *segment, size_t segment_length, uint64_t mirror, uint64_t rows, uint64_t edition,
                    uint64_t *cleared);

/*
 * Which readings of the mirror are whole, so that a person sees why it is cleared or not: bit r % 64 of word r / 64 is 1 exactly if
 * reading r is, by the rule above. The 65,536 bits are the first 1,024 of `words`, all of which are written; those behind them stay.
 *
 * Refusals: 1; then 14 by `rows`, there is no edition here; then 4, where any page is not sound; then 11, where `words_length` is below
 * 1,024. No word is written then.
 */
uint64_t hk_whole_readings(const uint8_t *segment, size_t segment_length, uint64_t mirror, uint64_t rows, uint64_t *words,
                           size_t words_length);

/* What the place of repair's entry is when it is not a slot. */
enum { HK_AT_HEADER = 65535, HK_AT_INVENTORY = 65536 };

/* What repair did. */
enum {
    HK_RECORD_FREED = 1,        /* slot: its record did not lie as it must */
    HK_REDIRECT_FREED = 2,      /* slot: its redirect had no target pointing back */
    HK_MADE_ORDINARY = 3,       /* slot: a target without its redirect, kept under its own id */
    HK_HEADER_WORKED_OUT = 4,   /* header: one or more of its numbers */
    HK_HEADER_ZEROED = 5,       /* header: the page is lost, and fresh now */
    HK_INVENTORY_WORKED_OUT = 6 /* inventory */
};

/*
 * Keeps what can be kept of a segment and its inventory, whatever their bytes are, and tells what it touched. Afterwards the segment is
 * sound: no call answers 4 or 8 on it. What could be read before reads the same. A sound one gets no entry and keeps each byte.
 *
 * A page whose slot count no page can have, or is 0 without a fresh page's header, is lost: its header becomes zero. On every other page
 * the slots are gone through upward. A record that leaves its page, reaches into the directory or overlaps a record kept before it is
 * freed, and so is a target under 8 bytes. A redirect is freed unless its target is kept, on another page, and points back; a target that
 * no kept redirect names becomes a record of its own, under its own id. Header numbers that are wrong are worked out anew, the inventory
 * last. No byte of a record is touched or moved.
 *
 * An entry is three words of `entries`: page, place, what was done. The place is a slot's number or HK_AT_HEADER; HK_AT_INVENTORY comes
 * with the number of pages. There is one for each slot, header and inventory that changed and no other, ascending by page and place. With 0
 * `count` is how many there are, and the words behind them stay. With 11 it is how many there would be, and nothing is changed, nor with 1,
 * where `count` is 0. `entries_length` counts words: 3 * (2047 * pages + 1) always suffice.
 *
 * Lent a list of no words it changes nothing and is a check: 0 exactly if the segment is sound.
 *
 * It cannot see a row whose bytes were changed, an entry that is wrong but lies well, or a header that became that of a fresh page: of
 * that only the inventory's entry hints. It does not tell the old bytes: keep a copy of the segment before.
 */
uint64_t hk_repair(uint8_t *segment, size_t segment_length, uint8_t *inventory, size_t inventory_length, uint64_t *entries,
                   size_t entries_length, uint64_t *count);

#ifdef __cplusplus
}
#endif

#endif
