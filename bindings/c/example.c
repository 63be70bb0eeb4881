/* Guests and their seats. A guest has one seat, and a seat has one guest.
 *
 *     cc example.c $(pkg-config --cflags --libs jetukoma) -o example && ./example
 */
#include "jetukoma.h"
#include <stdio.h>
#include <string.h>

static jetukoma_bytes_u64 seats = {0};

static void seat(const char *guest, uint64_t number) {
    static const char *told[] = {"a new seat", "leaves a seat", "takes one that was taken", "has it already",
                                 "leaves a seat for one that was taken"};
    uint32_t kind, status = jetukoma_bytes_u64_insert(&seats, (const uint8_t *)guest, strlen(guest), number, &kind);
    printf("%s on %d: %s\n", guest, (int)number, status ? "no memory" : told[kind]);
}

int main(void) {
    if (jetukoma_bytes_u64_new(&seats, JETUKOMA_ORDERED, 0)) return 1;
    seat("ann", 12);
    seat("bob", 7);
    seat("ann", 7); /* ann leaves seat 12, and bob has no seat now */
    seat("cy", 12);

    uint8_t guest[8];
    size_t len, rank = 0;
    uint64_t number;
    uint32_t status = jetukoma_bytes_u64_get_by_right(&seats, 7, guest, sizeof guest, &len);
    if (status == JETUKOMA_DONE) printf("on 7 sits %.*s\n", (int)len, (char *)guest);
    if (jetukoma_bytes_u64_get_by_left(&seats, (const uint8_t *)"bob", 3, &number) == JETUKOMA_NOT_FOUND) printf("bob stands\n");
    while (!jetukoma_bytes_u64_pair_at_rank(&seats, rank++, guest, sizeof guest, &len, &number))
        printf("%.*s <> %d\n", (int)len, (char *)guest, (int)number);
    return jetukoma_bytes_u64_free(&seats) != JETUKOMA_DONE;
}
