/*
 * The calls from C: document 01's cases of the segment, refusals of each kind, the scan, many rows in one call, the fill report, the
 * exchange file, the polishing rule, repair.
 * Prints one line a case, and what differs.
 */
#include "hekatosuy.h"

#include <stdio.h>
#include <stdlib.h>
#include <string.h>

enum { PAGE = HK_PAGE_SIZE, PAGES = 3, TOO_LONG = HK_MAX_RECORD_SIZE + 1 };

static uint8_t segment[PAGES * PAGE];
static uint8_t inventory[PAGE];
static uint8_t record[TOO_LONG];
static uint8_t old_segment[PAGES * PAGE], old_inventory[PAGE];
static size_t segment_length;
static int faults;
static int faults_before;

static void expect(const char *what, uint64_t got, uint64_t wanted) {
    if (got != wanted) {
        printf("  %s: %llu, not %llu\n", what, (unsigned long long)got, (unsigned long long)wanted);
        faults++;
    }
}

static void begin(size_t pages) {
    memset(segment, 0, sizeof segment);
    memset(inventory, 0, sizeof inventory);
    segment_length = pages * PAGE;
}

static void end(const char *name) {
    printf("%s: %s\n", name, faults == faults_before ? "ok" : "FAILED");
    faults_before = faults;
}

static void keep_old(void) {
    memcpy(old_segment, segment, sizeof segment);
    memcpy(old_inventory, inventory, sizeof inventory);
}

static uint64_t id_of(uint64_t page, uint64_t slot) {
    return page * 65536 + slot;
}

static void fill(size_t length, unsigned seed) {
    for (size_t k = 0; k < length; k++) record[k] = (uint8_t)(seed + 7 * k + k / 256);
}

static void insert(size_t length, unsigned seed, uint64_t answer, uint64_t wanted) {
    uint64_t id = 77;
    fill(length, seed);
    expect("insert", hk_insert_record(segment, segment_length, inventory, PAGE, record, length, &id), answer);
    expect("insert's id", id, answer == HK_DONE ? wanted : 77);
}

static void write_to(uint64_t id, size_t length, unsigned seed, uint64_t answer) {
    fill(length, seed);
    expect("write", hk_write_record(segment, segment_length, inventory, PAGE, id, record, length), answer);
}

static void resize(uint64_t id, uint64_t size, uint64_t answer) {
    expect("resize", hk_resize_record(segment, segment_length, inventory, PAGE, id, size), answer);
}

static void erase(uint64_t id, uint64_t answer) {
    expect("erase", hk_erase_record(segment, segment_length, inventory, PAGE, id), answer);
}

/* Where the record lies, and that its first bytes are those of the seed and the rest, from `zeros_from` on, are 0. */
static void read_back(uint64_t id, uint64_t offset, uint64_t length, unsigned seed, size_t zeros_from) {
    uint64_t at = 77, n = 77;
    expect("read", hk_get_record(segment, segment_length, id, &at, &n), HK_DONE);
    expect("read's offset", at, offset);
    expect("read's length", n, length);
    fill(length, seed);
    if (zeros_from < length) memset(record + zeros_from, 0, length - zeros_from);
    expect("read's bytes differ", n == length && memcmp(segment + at, record, n) != 0, 0);
}

static void read_refused(uint64_t id, uint64_t answer) {
    uint64_t at = 77, n = 77;
    expect("read", hk_get_record(segment, segment_length, id, &at, &n), answer);
    expect("refused read's offset", at, 0);
    expect("refused read's length", n, 0);
}

static uint64_t big_endian(size_t at, size_t width) {
    uint64_t value = 0;
    for (size_t k = 0; k < width; k++) value = value << 8 | segment[at + k];
    return value;
}

static void header(size_t page, uint64_t count, uint64_t first_free, uint64_t data_start, uint64_t free_space) {
    size_t at = page * PAGE;
    expect("slot count", big_endian(at, 2), count);
    expect("first free slot", big_endian(at + 2, 2), first_free);
    expect("data start", big_endian(at + 4, 4), data_start);
    expect("free space", big_endian(at + 8, 4), free_space);
}

static void slot(size_t page, size_t k, uint64_t value) {
    expect("slot", big_endian(page * PAGE + 12 + 8 * k, 8), value);
}

static void three_bytes(void) {
    begin(1);
    insert(3, 1, HK_DONE, 0);
    header(0, 1, 1, 16381, 16361);
    slot(0, 0, 0x00003FFD00000003);
    expect("nibble", inventory[120], 2);
    insert(12271, 2, HK_FULL, 0);
    insert(12270, 2, HK_DONE, 1);
    read_back(0, 16381, 3, 1, 3);
    end("three bytes, then 12,271 and 12,270");
}

static void largest(void) {
    begin(1);
    insert(TOO_LONG, 1, HK_LONG, 0);
    insert(HK_MAX_RECORD_SIZE, 1, HK_DONE, 0);
    header(0, 1, 1, 20, 0);
    end("16,365 and 16,364 bytes");
}

static void erased_in_order(void) {
    begin(1);
    insert(3, 1, HK_DONE, 0);
    insert(4, 2, HK_DONE, 1);
    insert(5, 3, HK_DONE, 2);
    erase(0, HK_DONE);
    erase(1, HK_DONE);
    erase(2, HK_DONE);
    header(0, 1, 0, 16377, 16364);
    slot(0, 0, 0x4000000000000000);
    erase(0, HK_NONE);
    end("lengths 3, 4, 5, erased in order");
}

static void compactified(size_t last, uint64_t offset, uint64_t free_space, const char *name) {
    begin(1);
    insert(5000, 1, HK_DONE, 0);
    insert(5000, 2, HK_DONE, 1);
    insert(3000, 3, HK_DONE, 2);
    erase(1, HK_DONE);
    insert(10, 4, HK_DONE, 1);
    insert(last, 5, HK_DONE, 3);
    read_back(3, offset, last, 5, last);
    read_back(2, last == 3338 ? 8384 : 3384, 3000, 3, 3000);
    header(0, 4, 4, offset, free_space);
    end(name);
}

static void grown(void) {
    begin(1);
    insert(100, 1, HK_DONE, 0);
    resize(0, 300, HK_DONE);
    header(0, 1, 1, 15984, 16064);
    read_back(0, 15984, 300, 1, 100);
    end("a record of 100 alone, grown to 300");
}

/* "n = 3: insert 16,000 at (0,0), 100 at (1,0), 12,000 at (1,1). Write 5,000 to (1,0)" */
static void begin_forwarded(void) {
    begin(3);
    insert(16000, 1, HK_DONE, id_of(0, 0));
    insert(100, 2, HK_DONE, id_of(1, 0));
    insert(12000, 3, HK_DONE, id_of(1, 1));
    write_to(id_of(1, 0), 5000, 4, HK_DONE);
}

static void forwarded(void) {
    begin_forwarded();
    read_back(id_of(1, 0), 2 * PAGE + 11384, 5000, 4, 5000);
    slot(1, 0, 0x8000000000020000);
    slot(2, 0, 0xC0002C7000001390);
    expect("free space of page 1", big_endian(PAGE + 8, 4), 4356);
    expect("free space of page 2", big_endian(2 * PAGE + 8, 4), 11356);
    expect("back id", big_endian(2 * PAGE + 11376, 8), id_of(1, 0));
    write_to(id_of(1, 0), 16357, 5, HK_FULL);
    read_back(id_of(1, 0), 2 * PAGE + 11384, 5000, 4, 5000);
    write_to(id_of(1, 0), 16356, 5, HK_DONE);
    read_back(id_of(1, 0), 2 * PAGE + 28, 16356, 5, 16356);
    expect("free space of page 2", big_endian(2 * PAGE + 8, 4), 0);
    end("forwarded, with 16,357 and 16,356");
}

static void by_the_targets_id(void) {
    begin_forwarded();
    read_back(id_of(2, 0), 2 * PAGE + 11384, 5000, 4, 5000);
    write_to(id_of(2, 0), 10, 5, HK_FORWARDED);
    resize(id_of(2, 0), 10, HK_FORWARDED);
    erase(id_of(2, 0), HK_FORWARDED);
    erase(id_of(1, 0), HK_DONE);
    read_refused(id_of(1, 0), HK_NONE);
    read_refused(id_of(2, 0), HK_NONE);
    end("calls by a target's own id");
}

static void scanned(uint64_t *position, uint64_t answer, uint64_t wanted, uint64_t id, uint64_t offset, uint64_t length) {
    uint64_t found = 77, i = 77, at = 77, n = 77;
    expect("scan", hk_scan_step(segment, segment_length, position, &found, &i, &at, &n), answer);
    expect("scan's found", found, wanted);
    expect("scan's id", i, id);
    expect("scan's offset", at, offset);
    expect("scan's length", n, length);
}

static void scan(void) {
    uint64_t position = 0;
    begin_forwarded();
    scanned(&position, HK_DONE, 1, id_of(0, 0), 384, 16000);
    scanned(&position, HK_DONE, 1, id_of(1, 1), PAGE + 4284, 12000);
    scanned(&position, HK_DONE, 1, id_of(1, 0), 2 * PAGE + 11384, 5000);
    scanned(&position, HK_DONE, 0, 0, 0, 0);
    scanned(&position, HK_DONE, 0, 0, 0, 0);
    position = 0;
    segment[PAGE + 11]++;
    scanned(&position, HK_DONE, 1, id_of(0, 0), 384, 16000);
    scanned(&position, HK_DAMAGED, 0, 0, 0, 0);
    scanned(&position, HK_DONE, 0, 0, 0, 0);
    position = 0;
    segment_length--;
    scanned(&position, HK_SIZE, 0, 0, 0, 0);
    scanned(&position, HK_DONE, 0, 0, 0, 0);
    end("a scan, of a damaged page, of a wrong size");
}

static void allocated(void) {
    uint64_t id = 77;
    begin(1);
    memset(segment + 12, 9, PAGE - 12);
    expect("allocate", hk_allocate(segment, segment_length, inventory, PAGE, 50, &id), HK_DONE);
    expect("allocate's id", id, 0);
    read_back(0, 16334, 50, 0, 0);
    id = 77;
    expect("allocate", hk_allocate(segment, segment_length, inventory, PAGE, TOO_LONG, &id), HK_LONG);
    expect("allocate's id", id, 77);
    end("allocated bytes are zeros");
}

static void refused(void) {
    begin(2);
    insert(10, 1, HK_DONE, 0);
    read_refused(id_of(2, 0), HK_NOPAGE);
    read_refused(id_of(0, 1), HK_NONE);
    erase(UINT64_MAX, HK_NOPAGE);
    resize(0, TOO_LONG, HK_LONG);
    segment[11]++;
    read_refused(0, HK_DAMAGED);
    write_to(0, 10, 2, HK_DAMAGED);
    segment[11]--;
    expect("erase of a short inventory", hk_erase_record(segment, segment_length, inventory, PAGE - 1, 0), HK_SIZE);
    /* an inventory that names page 0 for what page 0 has no room for */
    insert(16000, 3, HK_DONE, id_of(1, 0));
    insert(16000, 4, HK_FULL, 0);
    memset(inventory, 0, 8 * 15);
    insert(HK_MAX_RECORD_SIZE, 4, HK_STALE, 0);
    read_back(0, 16374, 10, 1, 10);
    end("refusals");
}

/* A scan goes on from its position over what stands then: past a record that was erased, and on into pages lent since it ended. */
static void written_between_steps(void) {
    uint64_t position = 0;
    begin(1);
    insert(16, 1, HK_DONE, id_of(0, 0));
    insert(17, 2, HK_DONE, id_of(0, 1));
    insert(18, 3, HK_DONE, id_of(0, 2));
    scanned(&position, HK_DONE, 1, id_of(0, 0), 16368, 16);
    erase(id_of(0, 1), HK_DONE);
    scanned(&position, HK_DONE, 1, id_of(0, 2), 16333, 18);
    scanned(&position, HK_DONE, 0, 0, 0, 0);
    segment_length = 2 * PAGE;
    insert(16000, 4, HK_DONE, id_of(1, 0));
    scanned(&position, HK_DONE, 1, id_of(1, 0), PAGE + 384, 16000);
    scanned(&position, HK_DONE, 0, 0, 0, 0);
    end("a scan with writes between its steps");
}

/* Inside a page whose slot count no page can have a scan answers damage, and no record made of bytes that are not there. */
static void impossible_count(void) {
    uint64_t position = 1;
    begin(2);
    insert(16, 1, HK_DONE, id_of(0, 0));
    insert(17, 2, HK_DONE, id_of(0, 1));
    segment[0] = 8; /* 2,050 slots */
    scanned(&position, HK_DAMAGED, 0, 0, 0, 0);
    scanned(&position, HK_DONE, 0, 0, 0, 0);
    position = id_of(0, 2047);
    scanned(&position, HK_DAMAGED, 0, 0, 0, 0);
    segment[0] = 0;
    position = 1;
    scanned(&position, HK_DONE, 1, id_of(0, 1), 16351, 17);
    end("a scan inside a page of impossible count");
}

/* A page whose count was wiped is damaged and not empty, and the row on it is there still. */
static void wiped_count(void) {
    uint64_t position = 0;
    begin(1);
    insert(10, 1, HK_DONE, id_of(0, 0));
    segment[1] = 0;
    read_refused(0, HK_DAMAGED);
    write_to(0, 10, 2, HK_DAMAGED);
    resize(0, 10, HK_DAMAGED);
    erase(0, HK_DAMAGED);
    insert(10, 2, HK_DAMAGED, 0);
    scanned(&position, HK_DAMAGED, 0, 0, 0, 0);
    segment[1] = 1;
    read_back(0, 16374, 10, 1, 10);
    end("a wiped count");
}

enum { ROW_BYTES = TOO_LONG + 6, PLACES = 4 };

static uint8_t rows[ROW_BYTES];
static uint64_t ids[PLACES];

/*
 * Inserts rows by one call, their bytes 00, 01, 02, .. end to end, lent so many places for ids. The rows told are inserted one at a time
 * into the old segment and inventory, which must then be as the new ones.
 */
static void insert_rows(size_t inventory_length, size_t rows_length, const uint64_t *lengths, size_t count, size_t places,
                        uint64_t answer, uint64_t told) {
    uint64_t inserted = 77, id = 77;
    size_t at = 0;
    keep_old();
    for (size_t k = 0; k < ROW_BYTES; k++) rows[k] = (uint8_t)k;
    for (size_t k = 0; k < PLACES; k++) ids[k] = 77;
    expect("insert of rows", hk_insert_records(segment, segment_length, inventory, inventory_length, rows, rows_length, lengths, count,
                                               ids, places, &inserted), answer);
    expect("rows inserted", inserted, told);
    for (size_t k = 0; k < told; at += lengths[k++]) {
        expect("one row", hk_insert_record(old_segment, segment_length, old_inventory, PAGE, rows + at, lengths[k], &id), HK_DONE);
        expect("a row's id", ids[k], id);
    }
    if (answer != HK_DONE && answer != HK_SIZE && answer != HK_LIST)
        expect("one row", hk_insert_record(old_segment, segment_length, old_inventory, PAGE, rows + at, lengths[told], &id), answer);
    for (size_t k = told; k < PLACES; k++) expect("a place behind the rows", ids[k], 77);
    expect("another segment", memcmp(old_segment, segment, sizeof segment) != 0, 0);
    expect("another inventory", memcmp(old_inventory, inventory, sizeof inventory) != 0, 0);
}

static void three_rows(void) {
    const uint64_t lengths[] = {3, 0, 5};
    const uint8_t bytes[] = {3, 4, 5, 6, 7, 0, 1, 2};
    begin(2);
    insert_rows(PAGE, 8, lengths, 3, 4, HK_DONE, 3);
    for (size_t k = 0; k < 3; k++) expect("id", ids[k], id_of(0, k));
    header(0, 3, 3, 16376, 16340);
    slot(0, 0, 0x00003FFD00000003);
    slot(0, 1, 0x00003FFD00000000);
    slot(0, 2, 0x00003FF800000005);
    expect("the rows' bytes differ", memcmp(segment + 16376, bytes, 8) != 0, 0);
    insert_rows(PAGE, 0, lengths, 0, 1, HK_DONE, 0);
    end("rows of 3, 0 and 5 bytes in one call, and none");
}

static void no_list(void) {
    const uint64_t lengths[] = {3, 5}, wrapping[] = {(uint64_t)1 << 63, (uint64_t)1 << 63};
    begin(2);
    insert_rows(PAGE, 1, lengths, 0, 1, HK_LIST, 0);
    insert_rows(PAGE, 8, lengths, 2, 1, HK_LIST, 0);
    insert_rows(PAGE, 7, lengths, 2, 2, HK_LIST, 0);
    insert_rows(PAGE, 9, lengths, 2, 2, HK_LIST, 0);
    insert_rows(PAGE, 0, wrapping, 2, 2, HK_LIST, 0);
    insert_rows(PAGE - 1, 0, lengths, 0, 0, HK_SIZE, 0);
    insert_rows(PAGE - 1, 1, lengths, 0, 0, HK_SIZE, 0);
    segment_length--;
    insert_rows(PAGE, 7, lengths, 2, 1, HK_SIZE, 0);
    end("rows whose lengths are no list of them, and wrong sizes");
}

static void stopped_rows(void) {
    const uint64_t with_long[] = {3, TOO_LONG, 3}, with_full[] = {3, 12271}, not_full[] = {3, 12270}, empty[] = {0, 0};
    begin(2);
    insert_rows(PAGE, ROW_BYTES, with_long, 3, 3, HK_LONG, 1);
    expect("id", ids[0], 0);
    header(0, 1, 1, 16381, 16361);
    slot(0, 0, 0x00003FFD00000003);
    expect("nibble", inventory[120], 2);
    begin(1);
    insert_rows(PAGE, 12274, with_full, 2, 2, HK_FULL, 1);
    header(0, 1, 1, 16381, 16361);
    begin(1);
    insert_rows(PAGE, 12273, not_full, 2, 2, HK_DONE, 2);
    expect("free space", big_endian(8, 4), 4083);
    begin(0);
    insert_rows(PAGE, 0, empty, 2, 2, HK_FULL, 0);
    end("rows up to the first refusal");
}

static void damaged_ahead(void) {
    const uint64_t lengths[] = {100, 16256};
    begin(2);
    insert(3, 1, HK_DONE, 0);
    segment[PAGE + 1] = 1;
    insert_rows(PAGE, 16356, lengths, 2, 2, HK_DAMAGED, 1);
    expect("id", ids[0], id_of(0, 1));
    end("rows up to a damaged page");
}

/* A tally, between words that must stay. */
static struct {
    uint64_t before;
    hk_tally tally;
    uint64_t behind;
} lent;

static hk_tally figures(uint64_t pages, uint64_t fresh_pages, uint64_t slots, uint64_t records, uint64_t record_bytes, uint64_t forwarded,
                        uint64_t free_bytes) {
    hk_tally made = {pages, fresh_pages, slots, records, record_bytes, forwarded, free_bytes, {0}};
    return made;
}

static hk_tally all_figures(uint64_t figure) {
    hk_tally made = figures(figure, figure, figure, figure, figure, figure, figure);
    for (size_t c = 0; c < 16; c++) made.classes[c] = figure;
    return made;
}

/* With so many pages of a class. */
static hk_tally with_class(hk_tally made, size_t c, uint64_t pages) {
    made.classes[c] = pages;
    return made;
}

/* A report on so many bytes, with this tally before and that afterwards. */
static void report(const uint8_t *bytes, size_t length, hk_tally before, uint64_t answer, hk_tally wanted) {
    lent.before = lent.behind = 77;
    lent.tally = before;
    expect("fill report", hk_fill_report(bytes, length, &lent.tally), answer);
    expect("pages", lent.tally.pages, wanted.pages);
    expect("fresh pages", lent.tally.fresh_pages, wanted.fresh_pages);
    expect("slots", lent.tally.slots, wanted.slots);
    expect("records", lent.tally.records, wanted.records);
    expect("record bytes", lent.tally.record_bytes, wanted.record_bytes);
    expect("forwarded records", lent.tally.forwarded, wanted.forwarded);
    expect("free bytes", lent.tally.free_bytes, wanted.free_bytes);
    for (size_t c = 0; c < 16; c++) expect("pages of a class", lent.tally.classes[c], wanted.classes[c]);
    expect("the word before the tally", lent.before, 77);
    expect("the word behind the tally", lent.behind, 77);
}

/* The same on the segment, which must keep each byte. */
static void fill_report(hk_tally before, uint64_t answer, hk_tally wanted) {
    keep_old();
    report(segment, segment_length, before, answer, wanted);
    expect("a report changed the segment", memcmp(old_segment, segment, sizeof segment) != 0, 0);
}

static void report_of_three_bytes(void) {
    const hk_tally none = all_figures(0), three = with_class(figures(1, 0, 1, 1, 3, 0, 16361), 2, 1);
    hk_tally before;
    begin(1);
    expect("bytes of a tally", sizeof(hk_tally), 184);
    insert(3, 1, HK_DONE, 0);
    fill_report(none, HK_DONE, three);
    before = figures(0, 0, 0, 0, UINT64_MAX - 2, 0, 0);
    fill_report(before, HK_TALLY, before);
    fill_report(figures(0, 0, 0, 0, UINT64_MAX - 3, 0, 0), HK_DONE, with_class(figures(1, 0, 1, 1, UINT64_MAX, 0, 16361), 2, 1));
    before = with_class(none, 2, UINT64_MAX);
    fill_report(before, HK_TALLY, before);
    fill_report(figures(0, UINT64_MAX, 0, 0, 0, 0, 0), HK_DONE, with_class(figures(1, UINT64_MAX, 1, 1, 3, 0, 16361), 2, 1));
    before = all_figures(UINT64_MAX);
    fill_report(before, HK_TALLY, before);
    segment_length = 0;
    fill_report(before, HK_DONE, before);
    end("fill report: three bytes, and figures near 2^64");
}

static void report_of_forwarded(void) {
    hk_tally once = figures(3, 0, 4, 3, 33000, 1, 16076), twice = figures(6, 0, 8, 6, 66000, 2, 32152);
    once.classes[3] = once.classes[8] = once.classes[15] = 1;
    twice.classes[3] = twice.classes[8] = twice.classes[15] = 2;
    begin_forwarded();
    fill_report(all_figures(0), HK_DONE, once);
    fill_report(once, HK_DONE, twice);
    end("fill report: a forwarded record, and the same again");
}

static void report_of_no_records(void) {
    begin(1);
    insert(3, 1, HK_DONE, 0);
    insert(4, 2, HK_DONE, 1);
    insert(5, 3, HK_DONE, 2);
    for (uint64_t k = 0; k < 3; k++) erase(k, HK_DONE);
    fill_report(all_figures(0), HK_DONE, with_class(figures(1, 0, 1, 0, 0, 0, 16364), 2, 1));
    begin(2);
    fill_report(all_figures(0), HK_DONE, with_class(figures(2, 2, 0, 0, 0, 0, 0), 0, 2));
    insert(12, 1, HK_DONE, 0);
    segment[12] = 0xC0; /* a target that no redirect names */
    fill_report(all_figures(0), HK_DONE, with_class(with_class(figures(2, 1, 1, 1, 4, 1, 16352), 0, 1), 2, 1));
    end("fill report: erased records, empty pages, and a target alone");
}

static void report_of_fresh(void) {
    const uint8_t initialised[12] = {0, 0, 0, 0, 0, 0, 0x40, 0, 0, 0, 0x3F, 0xF4};
    const hk_tally fresh = with_class(figures(1, 1, 0, 0, 0, 0, 0), 0, 1);
    begin(1);
    memset(segment, 0xEE, PAGE);
    memset(segment, 0, 2);
    fill_report(all_figures(5), HK_DAMAGED, all_figures(5));
    memset(segment, 0, 12);
    fill_report(all_figures(0), HK_DONE, fresh);
    memcpy(segment, initialised, 12);
    fill_report(all_figures(0), HK_DONE, fresh);
    end("fill report: a fresh page full of other bytes, and a wiped count");
}

static void report_refused(void) {
    const hk_tally most = figures(UINT64_MAX, 0, 0, 0, 0, 0, 0);
    begin(2);
    insert(3, 1, HK_DONE, 0);
    segment[PAGE + 1] = 1;
    fill_report(most, HK_DAMAGED, most);
    segment_length = PAGE;
    fill_report(most, HK_TALLY, most);
    segment_length = PAGE - 1;
    fill_report(most, HK_SIZE, most);
    fill_report(all_figures(0), HK_SIZE, all_figures(0));
    end("fill report: a damaged page, and sizes");
}

/* Mirror 7, reading 1: row 2 of three bytes, and row 3 of none; the records of both in the store. */
static const uint8_t file_a[] = {0x52, 0x54, 0, 0, 0, 7, 0, 1, 0, 2, 0, 3, 0xAA, 0xBB, 0xCC};
static const uint8_t file_b[] = {0x52, 0x54, 0, 0, 0, 7, 0, 1, 0, 3, 0, 0};
static const uint8_t stored_a[] = {0, 0, 0, 7, 0, 1, 0, 2, 0xAA, 0xBB, 0xCC};
static const uint8_t stored_b[] = {0, 0, 0, 7, 0, 1, 0, 3};

enum { FILE_BYTES = 2 * PAGE };

static uint8_t file[FILE_BYTES];
static size_t file_length;

/* More bytes of the file to be imported. */
static void add_to_file(const uint8_t *bytes, size_t length) {
    memcpy(file + file_length, bytes, length);
    file_length += length;
}

/* Row 3 with so many bytes of data, all alike, of which so many are there. */
static void add_row_3(size_t length, size_t there) {
    add_to_file(file_b, 10);
    file[file_length++] = (uint8_t)(length >> 8);
    file[file_length++] = (uint8_t)length;
    memset(file + file_length, 0xDD, there);
    file_length += there;
}

/* Imports the file, and inserts the records told one at a time in a copy: the same segment and inventory. */
static void import(size_t inventory_length, uint64_t answer, uint64_t told) {
    uint64_t inserted = 77, id = 77;
    size_t at = 0;
    keep_old();
    expect("import", hk_import(segment, segment_length, inventory, inventory_length, file, file_length, &inserted), answer);
    expect("records inserted", inserted, told);
    for (uint64_t k = 0; k < told; k++) {
        size_t data = (size_t)file[at + 10] << 8 | file[at + 11];
        memcpy(record, file + at + 2, 8);
        memcpy(record + 8, file + at + 12, data);
        expect("one record", hk_insert_record(old_segment, segment_length, old_inventory, PAGE, record, 8 + data, &id), HK_DONE);
        at += 12 + data;
    }
    expect("another segment", memcmp(old_segment, segment, sizeof segment) != 0, 0);
    expect("another inventory", memcmp(old_inventory, inventory, sizeof inventory) != 0, 0);
    file_length = 0;
}

/* A's record alone, by every byte of the page. */
static void page_of_a(void) {
    static uint8_t page[PAGE];
    const uint8_t first[] = {0, 1, 0, 1, 0, 0, 0x3F, 0xF5, 0, 0, 0x3F, 0xE1, 0, 0, 0x3F, 0xF5, 0, 0, 0, 0x0B};
    memcpy(page, first, sizeof first);
    memcpy(page + PAGE - sizeof stored_a, stored_a, sizeof stored_a);
    expect("the page differs", memcmp(segment, page, PAGE) != 0, 0);
}

static void imported(void) {
    begin(1);
    add_to_file(file_a, sizeof file_a);
    import(PAGE, HK_DONE, 1);
    page_of_a();
    import(PAGE, HK_DONE, 0);
    begin(1);
    add_row_3(16356, 16356);
    import(PAGE, HK_DONE, 1);
    header(0, 1, 1, 20, 0);
    begin(1);
    add_to_file(file_a, sizeof file_a);
    add_row_3(12263, 12263);
    add_to_file(file_a, sizeof file_a);
    import(PAGE, HK_FULL, 1);
    page_of_a();
    end("import: three bytes, none, the most, and up to the first refusal");
}

static void import_refused(void) {
    begin(1);
    add_to_file(file_a, sizeof file_a);
    add_to_file(file_b, 11);
    import(PAGE, HK_SHORT, 0);
    add_to_file(file_b, 11);
    file[1] = 0x53;
    import(PAGE, HK_SHORT, 0);
    add_row_3(65535, 0);
    file[1] = 0x53;
    import(PAGE, HK_MARK, 0);
    add_row_3(16357, 0);
    import(PAGE, HK_LONG, 0);
    add_row_3(16356, 16355);
    import(PAGE, HK_SHORT, 0);
    add_to_file(file_a, sizeof file_a);
    import(PAGE - 1, HK_SIZE, 0);
    segment_length--;
    add_to_file(file_a, 1);
    import(PAGE, HK_SIZE, 0);
    end("import: files that are none, and sizes");
}

/* Exports into so much room, whose bytes are EE: the first of them become these, and the others stay. */
static void export(size_t room, uint64_t answer, uint64_t length, uint64_t passed, const uint8_t *wanted, size_t wanted_length) {
    static uint8_t place[8 + FILE_BYTES + 8];
    uint64_t told_length = 77, told_passed = 77;
    keep_old();
    memset(place, 0xEE, sizeof place);
    expect("export", hk_export(segment, segment_length, place + 8, room, &told_length, &told_passed), answer);
    expect("export's length", told_length, length);
    expect("records passed over", told_passed, passed);
    expect("the file differs", memcmp(place + 8, wanted, wanted_length) != 0, 0);
    for (size_t k = 0; k < 8; k++) expect("a byte before the file", place[k], 0xEE);
    for (size_t k = 8 + wanted_length; k < sizeof place; k++) expect("a byte behind the file", place[k], 0xEE);
    expect("an export changed the segment", memcmp(old_segment, segment, sizeof segment) != 0, 0);
}

static void exported(void) {
    const uint8_t seven[7] = {7, 7, 7, 7, 7, 7, 7};
    uint64_t id;
    begin(2);
    expect("A", hk_insert_record(segment, segment_length, inventory, PAGE, stored_a, sizeof stored_a, &id), HK_DONE);
    expect("seven bytes", hk_insert_record(segment, segment_length, inventory, PAGE, seven, sizeof seven, &id), HK_DONE);
    expect("B", hk_insert_record(segment, segment_length, inventory, PAGE, stored_b, sizeof stored_b, &id), HK_DONE);
    add_to_file(file_a, sizeof file_a);
    add_to_file(file_b, sizeof file_b);
    export(30, HK_DONE, 27, 1, file, 27);
    export(27, HK_DONE, 27, 1, file, 27);
    export(26, HK_ROOM, 27, 1, file, 0);
    export(0, HK_ROOM, 27, 1, file, 0);
    file_length = 0;
    begin(2);
    export(3, HK_DONE, 0, 0, file, 0);
    segment[PAGE + 1] = 1;
    export(0, HK_DAMAGED, 0, 0, file, 0);
    export(30, HK_DAMAGED, 0, 0, file, 0);
    segment_length--;
    export(0, HK_SIZE, 0, 0, file, 0);
    end("export: two readings and a record that is none, too little room, a damaged page, and sizes");
}

/* A record that was moved comes where it lies, and without its id; into one page less the file does not go. */
static void exported_forwarded(void) {
    static uint8_t large[PAGES * PAGE];
    const uint8_t last[] = {0x52, 0x54, 0x22, 0x22, 0x22, 0x22, 0x22, 0x22, 0x22, 0x22, 0x13, 0x80};
    const size_t lengths[] = {16000, 100, 12000};
    uint64_t id, length, passed;
    begin(3);
    memset(record, 0x11, sizeof record);
    for (size_t k = 0; k < 3; k++)
        expect("insert", hk_insert_record(segment, segment_length, inventory, PAGE, record, lengths[k], &id), HK_DONE);
    memset(record, 0x22, 5000);
    expect("write", hk_write_record(segment, segment_length, inventory, PAGE, id_of(1, 0), record, 5000), HK_DONE);
    expect("export", hk_export(segment, segment_length, large, 33012, &length, &passed), HK_DONE);
    expect("export's length", length, 33012);
    expect("records passed over", passed, 0);
    expect("the last record differs", memcmp(large + 28008, last, sizeof last) != 0, 0);
    expect("its last byte", large[33011], 0x22);
    expect("the byte behind", large[33012], 0);
    begin(3);
    expect("import", hk_import(segment, 2 * PAGE, inventory, PAGE, large, 33012, &id), HK_FULL);
    expect("records inserted", id, 2);
    begin(3);
    expect("import", hk_import(segment, segment_length, inventory, PAGE, large, 33012, &id), HK_DONE);
    expect("records inserted", id, 3);
    end("export: a forwarded record, and the file imported");
}

/* A record of 9 bytes, of mirror 7. */
static void put_row(unsigned reading, unsigned row) {
    const uint8_t bytes[] = {0, 0, 0, 7, (uint8_t)(reading >> 8), (uint8_t)reading, (uint8_t)(row >> 8), (uint8_t)row, 0xDD};
    uint64_t id;
    expect("a row", hk_insert_record(segment, segment_length, inventory, PAGE, bytes, sizeof bytes, &id), HK_DONE);
}

static void put_rows(unsigned reading, unsigned first, unsigned second) {
    put_row(reading, first);
    put_row(reading, second);
}

/* Whether the mirror is cleared, with a word on either side that must stay. */
static void clear(uint64_t mirror, uint64_t rows, uint64_t edition, uint64_t answer, uint64_t cleared) {
    uint64_t told[3] = {77, 77, 77};
    keep_old();
    expect("cleared or not", hk_cleared(segment, segment_length, mirror, rows, edition, told + 1), answer);
    expect("cleared", told[1], cleared);
    expect("the word before", told[0], 77);
    expect("the word behind", told[2], 77);
    expect("a question changed the segment", memcmp(old_segment, segment, sizeof segment) != 0, 0);
}

enum { READING_WORDS = 1024 };

/* The whole readings, lent so many words: these bits of these words with 0, and no word written else. */
static void list_whole(uint64_t mirror, uint64_t rows, size_t length, uint64_t answer, size_t first, uint64_t first_bits, size_t second,
                       uint64_t second_bits) {
    static uint64_t words[1 + READING_WORDS + 3];
    for (size_t k = 0; k < sizeof words / 8; k++) words[k] = 77;
    expect("whole readings", hk_whole_readings(segment, segment_length, mirror, rows, words + 1, length), answer);
    for (size_t k = 0; k < READING_WORDS; k++)
        expect("a word", words[1 + k], answer != HK_DONE ? 77 : (k == first ? first_bits : 0) | (k == second ? second_bits : 0));
    expect("the word before", words[0], 77);
    for (size_t k = 1 + READING_WORDS; k < sizeof words / 8; k++) expect("a word behind", words[k], 77);
}

/* Two readings of two rows, and the same of other rows and by edition 2. */
static void two_readings(void) {
    begin(2);
    put_rows(1, 0, 1);
    put_rows(2, 1, 0);
    clear(7, 2, 1, HK_DONE, 1);
    clear(7, 2, 2, HK_DONE, 0);
    clear(7, 1, 1, HK_DONE, 0);
    clear(7, 3, 1, HK_DONE, 0);
    clear(((uint64_t)1 << 32) + 7, 2, 1, HK_DONE, 0);
    list_whole(7, 2, READING_WORDS, HK_DONE, 0, 6, 0, 0);
    list_whole(7, 2, READING_WORDS + 3, HK_DONE, 0, 6, 0, 0);
    list_whole(7, 2, READING_WORDS - 1, HK_ROOM, 0, 0, 0, 0);
    list_whole(7, 2, 0, HK_ROOM, 0, 0, 0, 0);
    list_whole(7, 1, READING_WORDS, HK_DONE, 0, 0, 0, 0);
    list_whole(7, 3, READING_WORDS, HK_DONE, 0, 0, 0, 0);
    list_whole(((uint64_t)1 << 32) + 7, 2, READING_WORDS, HK_DONE, 0, 0, 0, 0);
    end("polishing: two readings of two rows, by both editions, of other rows and of another mirror");
}

static void rows_twice(void) {
    begin(1);
    put_rows(1, 0, 1);
    put_rows(2, 0, 1);
    put_row(2, 0);
    clear(7, 2, 1, HK_DONE, 0);
    list_whole(7, 2, READING_WORDS, HK_DONE, 0, 2, 0, 0);
    begin(1);
    put_rows(1, 0, 1);
    put_rows(2, 0, 0);
    clear(7, 2, 1, HK_DONE, 0);
    list_whole(7, 2, READING_WORDS, HK_DONE, 0, 2, 0, 0);
    begin(1);
    put_rows(1, 0, 1);
    put_rows(2, 0, 1);
    put_row(2, 1);
    clear(7, 2, 1, HK_DONE, 0);
    erase(id_of(0, 4), HK_DONE);
    clear(7, 2, 1, HK_DONE, 1);
    list_whole(7, 2, READING_WORDS, HK_DONE, 0, 6, 0, 0);
    end("polishing: a row twice, one missing, and one erased");
}

/* Readings of one row each, by edition 2. */
static void sides(const unsigned *readings, size_t count, uint64_t cleared, size_t first, uint64_t first_bits, size_t second,
                  uint64_t second_bits) {
    begin(1);
    for (size_t k = 0; k < count; k++) put_row(readings[k], 0);
    clear(7, 1, 2, HK_DONE, cleared);
    clear(7, 1, 1, HK_DONE, 1);
    list_whole(7, 1, READING_WORDS, HK_DONE, first, first_bits, second, second_bits);
}

static void both_sides(void) {
    const unsigned mounted[] = {1, 2, 3}, half[] = {1, 32767, 32768}, turned[] = {32768, 32769, 65535}, two[] = {1, 2, 32768, 32769};
    const uint64_t last = (uint64_t)1 << 63;
    sides(mounted, 3, 0, 0, 14, 0, 0);
    sides(half + 1, 2, 0, 511, last, 512, 1);
    sides(turned, 3, 0, 512, 3, 1023, last);
    sides(two, 4, 1, 0, 6, 512, 3);
    begin(1);
    for (size_t k = 0; k < 3; k++) put_row(half[k], 0);
    clear(7, 1, 2, HK_DONE, 1);
    begin(1);
    put_row(1, 0);
    put_row(32768, 0);
    clear(7, 1, 2, HK_DONE, 0);
    list_whole(7, 1, READING_WORDS, HK_DONE, 0, 2, 512, 1);
    end("polishing: as mounted and turned");
}

/* "as 13, edition 3; or rows 0; or rows 2,049", and numbers that fewer bits would make right ones. */
static void no_rule(void) {
    const uint64_t wide = (uint64_t)1 << 32;
    begin(2);
    put_rows(1, 0, 1);
    put_rows(2, 1, 0);
    segment[PAGE + 1] = 1;
    clear(7, 2, 1, HK_DAMAGED, 0);
    list_whole(7, 2, READING_WORDS, HK_DAMAGED, 0, 0, 0, 0);
    list_whole(7, 2, 0, HK_DAMAGED, 0, 0, 0, 0);
    clear(7, 2, 3, HK_RULE, 0);
    clear(7, 2, 0, HK_RULE, 0);
    clear(7, 2, wide + 1, HK_RULE, 0);
    clear(7, 0, 1, HK_RULE, 0);
    clear(7, 2049, 1, HK_RULE, 0);
    clear(7, wide + 2, 1, HK_RULE, 0);
    list_whole(7, 0, READING_WORDS, HK_RULE, 0, 0, 0, 0);
    list_whole(7, 2049, 0, HK_RULE, 0, 0, 0, 0);
    list_whole(7, wide + 2, READING_WORDS, HK_RULE, 0, 0, 0, 0);
    segment_length = PAGE - 1;
    clear(7, 2, 3, HK_SIZE, 0);
    clear(7, 0, 1, HK_SIZE, 0);
    list_whole(7, 2, READING_WORDS, HK_SIZE, 0, 0, 0, 0);
    list_whole(7, 0, 0, HK_SIZE, 0, 0, 0, 0);
    segment_length = 0;
    clear(7, 1, 1, HK_DONE, 0);
    clear(7, 2048, 2, HK_DONE, 0);
    list_whole(7, 1, READING_WORDS, HK_DONE, 0, 0, 0, 0);
    end("polishing: a damaged page, other editions and rows, and sizes");
}

static void seven_bytes(void) {
    const uint8_t seven[] = {0, 0, 0, 7, 0, 1, 0};
    uint64_t id;
    begin(1);
    put_row(1, 0);
    put_row(2, 0);
    expect("seven bytes", hk_insert_record(segment, segment_length, inventory, PAGE, seven, sizeof seven, &id), HK_DONE);
    clear(7, 1, 1, HK_DONE, 1);
    list_whole(7, 1, READING_WORDS, HK_DONE, 0, 6, 0, 0);
    end("polishing: a record of seven bytes");
}

enum { WORDS = 3 * (2047 * PAGES + 1) };

static uint64_t entries[WORDS];

static void set_bytes(size_t at, const char *bytes, size_t length) {
    memcpy(segment + at, bytes, length);
}

/* Repairs, lent so many words. */
static void repair(size_t words, uint64_t answer, uint64_t count) {
    uint64_t told = 77;
    keep_old();
    for (size_t k = 0; k < WORDS; k++) entries[k] = 77;
    expect("repair", hk_repair(segment, segment_length, inventory, PAGE, entries, words, &told), answer);
    expect("repair's count", told, count);
    for (size_t k = answer == HK_DONE ? 3 * count : 0; k < WORDS; k++) expect("a word behind the entries", entries[k], 77);
    if (answer == HK_DONE && count != 0) return;
    expect("repair changed the segment", memcmp(old_segment, segment, sizeof segment) != 0, 0);
    expect("repair changed the inventory", memcmp(old_inventory, inventory, sizeof inventory) != 0, 0);
}

static void told(size_t number, uint64_t page, uint64_t place, uint64_t what) {
    expect("entry's page", entries[3 * number], page);
    expect("entry's place", entries[3 * number + 1], place);
    expect("what was done", entries[3 * number + 2], what);
}

/* "The lower slot is kept; what overlaps only a freed record is kept too." Lent too few words it changes nothing. */
static void overlapped(void) {
    begin(1);
    insert(3, 1, HK_DONE, 0);
    insert(4, 2, HK_DONE, 1);
    insert(5, 3, HK_DONE, 2);
    repair(0, HK_DONE, 0);
    set_bytes(20, "\0\0\x3F\xFB\0\0\0\4", 8);
    set_bytes(28, "\0\0\x3F\xF8\0\0\0\5", 8);
    repair(0, HK_ROOM, 2);
    repair(5, HK_ROOM, 2);
    repair(6, HK_DONE, 2);
    told(0, 0, 1, HK_RECORD_FREED);
    told(1, 0, HK_AT_HEADER, HK_HEADER_WORKED_OUT);
    slot(0, 1, 0x4000000000000000);
    header(0, 3, 1, 16372, 16340);
    repair(0, HK_DONE, 0);
    read_refused(1, HK_NONE);
    end("repair: records that overlap, and a list that is too short");
}

/* "The target's page is lost": its redirect is freed with it; and the root's page, whose target becomes a record of its own. */
static void lost_pages(void) {
    begin_forwarded();
    segment[2 * PAGE] = segment[2 * PAGE + 1] = 0xFF;
    repair(WORDS, HK_DONE, 4);
    told(0, 1, 0, HK_REDIRECT_FREED);
    told(1, 1, HK_AT_HEADER, HK_HEADER_WORKED_OUT);
    told(2, 2, HK_AT_HEADER, HK_HEADER_ZEROED);
    told(3, 3, HK_AT_INVENTORY, HK_INVENTORY_WORKED_OUT);
    header(1, 2, 0, 4284, 4356);
    header(2, 0, 0, 0, 0);
    begin_forwarded();
    segment[PAGE] = segment[PAGE + 1] = 0;
    repair(WORDS, HK_DONE, 4);
    told(0, 1, HK_AT_HEADER, HK_HEADER_ZEROED);
    told(1, 2, 0, HK_MADE_ORDINARY);
    told(2, 2, HK_AT_HEADER, HK_HEADER_WORKED_OUT);
    told(3, 3, HK_AT_INVENTORY, HK_INVENTORY_WORKED_OUT);
    slot(2, 0, 0x00002C7800001388);
    read_back(id_of(2, 0), 2 * PAGE + 11384, 5000, 4, 5000);
    repair(0, HK_DONE, 0);
    end("repair: a target's page lost, and a root's");
}

/* "The back id names another slot", with two words too few: three places for four entries. */
static void back_id_changed(void) {
    begin_forwarded();
    segment[2 * PAGE + 11383] = 1;
    repair(10, HK_ROOM, 4);
    repair(12, HK_DONE, 4);
    told(0, 1, 0, HK_REDIRECT_FREED);
    told(1, 1, HK_AT_HEADER, HK_HEADER_WORKED_OUT);
    told(2, 2, 0, HK_MADE_ORDINARY);
    told(3, 2, HK_AT_HEADER, HK_HEADER_WORKED_OUT);
    header(1, 2, 0, 4284, 4356);
    header(2, 1, 1, 11376, 11364);
    end("repair: a back id changed, and two words too few");
}

static void repair_refused(void) {
    begin(2);
    insert(10, 1, HK_DONE, 0);
    segment[11]++;
    segment_length--;
    repair(0, HK_SIZE, 0);
    repair(WORDS, HK_SIZE, 0);
    segment_length = 0;
    repair(WORDS, HK_DONE, 1);
    told(0, 0, HK_AT_INVENTORY, HK_INVENTORY_WORKED_OUT);
    expect("an inventory of no pages", inventory[120], 0);
    end("repair: sizes, and no pages");
}

static void widest(void) {
    size_t whole = (size_t)HK_MAX_PAGES * PAGE;
    uint8_t *pages = calloc(HK_MAX_PAGES + 1, PAGE);
    uint64_t id = 77, passed = 77;
    begin(0);
    if (pages == NULL) {
        puts("the most pages: left out, no memory");
        return;
    }
    expect("one page too many", hk_insert_record(pages, whole + PAGE, inventory, PAGE, record, 3, &id), HK_SIZE);
    expect("one byte too many", hk_insert_record(pages, whole + 1, inventory, PAGE, record, 3, &id), HK_SIZE);
    expect("a short inventory", hk_insert_record(pages, whole, inventory, PAGE - 1, record, 3, &id), HK_SIZE);
    expect("no id", id, 77);
    expect("the most pages", hk_insert_record(pages, whole, inventory, PAGE, record, 3, &id), HK_DONE);
    expect("the first id", id, 0);
    report(pages, whole, all_figures(0), HK_DONE,
           with_class(with_class(figures(HK_MAX_PAGES, HK_MAX_PAGES - 1, 1, 1, 3, 0, 16361), 0, HK_MAX_PAGES - 1), 2, 1));
    report(pages, whole + PAGE, all_figures(7), HK_SIZE, all_figures(7));
    expect("one page too many", hk_import(pages, whole + PAGE, inventory, PAGE, file_b, sizeof file_b, &id), HK_SIZE);
    expect("no record", id, 0);
    expect("the most pages, imported into", hk_import(pages, whole, inventory, PAGE, file_b, sizeof file_b, &id), HK_DONE);
    expect("one record", id, 1);
    expect("one page too many", hk_export(pages, whole + PAGE, record, PAGE, &id, &passed), HK_SIZE);
    expect("no file", id + passed, 0);
    expect("the most pages, exported", hk_export(pages, whole, record, PAGE, &id, &passed), HK_DONE);
    expect("the file's length", id, sizeof file_b);
    expect("the file differs", memcmp(record, file_b, sizeof file_b) != 0, 0);
    expect("three bytes passed over", passed, 1);
    expect("one page too many", hk_cleared(pages, whole + PAGE, 7, 4, 1, &id), HK_SIZE);
    expect("not cleared", id, 0);
    expect("the most pages, asked", hk_cleared(pages, whole, 7, 4, 1, &id), HK_DONE);
    expect("not cleared", id, 0);
    expect("the most pages, checked", hk_repair(pages, whole, inventory, PAGE, entries, 0, &id), HK_DONE);
    pages[whole - PAGE] = 0xFF;
    expect("the last page damaged", hk_repair(pages, whole, inventory, PAGE, entries, WORDS, &id), HK_DONE);
    expect("one entry", id, 1);
    told(0, HK_MAX_PAGES - 1, HK_AT_HEADER, HK_HEADER_ZEROED);
    expect("one page too many", hk_repair(pages, whole + PAGE, inventory, PAGE, entries, WORDS, &id), HK_SIZE);
    expect("no entry", id, 0);
    free(pages);
    end("the most pages, and one more");
}

static void nothing_lent(void) {
    uint64_t id = 77;
    begin(0);
    expect("insert into nothing", hk_insert_record(segment, 0, inventory, PAGE, record, 0, &id), HK_FULL);
    expect("without an inventory", hk_insert_record(segment, 0, inventory, 0, record, 0, &id), HK_SIZE);
    end("no pages");
}

int main(void) {
    three_bytes();
    largest();
    erased_in_order();
    compactified(3338, 5036, 4992, "3,338 into a gap of 3,338: compactified");
    compactified(3330, 44, 5000, "3,330 into a gap of 3,338: not compactified");
    grown();
    forwarded();
    by_the_targets_id();
    scan();
    allocated();
    refused();
    written_between_steps();
    impossible_count();
    wiped_count();
    three_rows();
    no_list();
    stopped_rows();
    damaged_ahead();
    report_of_three_bytes();
    report_of_forwarded();
    report_of_no_records();
    report_of_fresh();
    report_refused();
    imported();
    import_refused();
    exported();
    exported_forwarded();
    two_readings();
    rows_twice();
    both_sides();
    no_rule();
    seven_bytes();
    overlapped();
    lost_pages();
    back_id_changed();
    repair_refused();
    widest();
    nothing_lent();
    return faults != 0;
}
