/* The four things that calls are lent, each at the end of a room between two pages that nobody may touch. */
#define _DEFAULT_SOURCE

#include <stdlib.h>
#include <string.h>
#include <sys/mman.h>

#include "fuzz.h"

enum { PAGE = 4096 };

struct lent image, record, words, output;

static void make_room(struct lent *l, size_t pages)
{
    l->size = pages * PAGE;
    uint8_t *map = mmap(NULL, l->size + 2 * PAGE, PROT_READ | PROT_WRITE, MAP_PRIVATE | MAP_ANONYMOUS, -1, 0);
    if (map == MAP_FAILED || mprotect(map, PAGE, PROT_NONE) != 0 || mprotect(map + PAGE + l->size, PAGE, PROT_NONE) != 0)
        abort();
    l->room = map + PAGE;
    l->kept = calloc(1, l->size);
    if (l->kept == NULL)
        abort();
    lend(l, 0);
}

void make_rooms(void)
{
    make_room(&image, 10);
    make_room(&record, 1);
    make_room(&words, 9);
    make_room(&output, 9);
}

/* The last bytes of the room. */
void lend(struct lent *l, size_t length)
{
    l->at = l->room + l->size - length;
    l->length = length;
}

void keep(struct lent *l)
{
    memcpy(l->kept, l->room, l->size);
}

bool same(const struct lent *l)
{
    return memcmp(l->kept, l->room, l->size) == 0;
}

/* The same, outside the first bytes that were lent. */
bool same_but(const struct lent *l, size_t bytes)
{
    size_t from = (size_t)(l->at - l->room);
    size_t to = from + (bytes < l->length ? bytes : l->length);
    return memcmp(l->kept, l->room, from) == 0 && memcmp(l->kept + to, l->room + to, l->size - to) == 0;
}

void put_back(struct lent *l, const uint8_t *room)
{
    memcpy(l->room, room, l->size);
    keep(l);
}
