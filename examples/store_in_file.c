/*
 * A store kept in a file: the inventory first, then the segment's pages. The file is mapped, and lent to each call where it lies. Zeros
 * are an empty store, and zeros at its end are further pages, so ftruncate both makes a store and lets it grow.
 *
 *     store_in_file FILE ROW..     puts rows in, reads each back, and lists all that are there
 *
 * A call that is cut off by a fall of the machine may leave the file half written: keep a copy, or write one and rename it, as
 * rust/examples/store_in_file.rs does.
 */
#define _POSIX_C_SOURCE 200809L
#include "hekatosuy.h"

#include <fcntl.h>
#include <stdio.h>
#include <string.h>
#include <sys/mman.h>
#include <unistd.h>

struct store {
    int file;
    uint8_t *inventory, *segment;
    size_t length; /* of the segment */
};

/* Maps the file, made longer by so many pages. Nothing that was mapped before is used afterwards. */
static int open_store(struct store *s, size_t more_pages) {
    off_t size = lseek(s->file, 0, SEEK_END);
    if (s->inventory != NULL) munmap(s->inventory, HK_PAGE_SIZE + s->length);
    if (size == 0) more_pages++; /* the inventory */
    if (size < 0 || ftruncate(s->file, size + (off_t)(more_pages * HK_PAGE_SIZE)) != 0) return 0;
    size += (off_t)(more_pages * HK_PAGE_SIZE);
    if (size < HK_PAGE_SIZE) return 0;
    s->inventory = mmap(NULL, (size_t)size, PROT_READ | PROT_WRITE, MAP_SHARED, s->file, 0);
    s->segment = s->inventory + HK_PAGE_SIZE;
    s->length = (size_t)size - HK_PAGE_SIZE;
    return s->inventory != MAP_FAILED;
}

/* Puts a row in; where no page has room, with one page more. */
static uint64_t insert(struct store *s, const char *row, uint64_t *id) {
    const uint8_t *bytes = (const uint8_t *)row;
    uint64_t answer = hk_insert_record(s->segment, s->length, s->inventory, HK_PAGE_SIZE, bytes, strlen(row), id);
    if (answer != HK_FULL || !open_store(s, 1)) return answer;
    return hk_insert_record(s->segment, s->length, s->inventory, HK_PAGE_SIZE, bytes, strlen(row), id);
}

static void print(const struct store *s, uint64_t id, uint64_t offset, uint64_t length) {
    printf("(%d,%d) %d bytes: %.*s\n", (int)(id / 65536), (int)(id % 65536), (int)length, length < 20 ? (int)length : 20,
           (const char *)s->segment + offset);
}

static uint64_t list(const struct store *s) {
    uint64_t position = 0, found = 1, id, offset, length, answer = HK_DONE;
    while (found) {
        answer = hk_scan_step(s->segment, s->length, &position, &found, &id, &offset, &length);
        if (found) print(s, id, offset, length);
    }
    return answer;
}

int main(int words, char **word) {
    struct store s = {words > 1 ? open(word[1], O_RDWR | O_CREAT, 0666) : -1, NULL, NULL, 0};
    uint64_t id, offset, length, answer = HK_DONE;
    if (s.file < 0 || !open_store(&s, 0)) return 2;
    for (int k = 2; k < words && answer == HK_DONE; k++) {
        answer = insert(&s, word[k], &id);
        if (answer == HK_DONE) answer = hk_get_record(s.segment, s.length, id, &offset, &length);
        if (answer == HK_DONE) printf("put "), print(&s, id, offset, length);
    }
    if (answer == HK_DONE) answer = list(&s);
    printf("pages %d, answer %d\n", (int)(s.length / HK_PAGE_SIZE), (int)answer);
    return answer != HK_DONE;
}
