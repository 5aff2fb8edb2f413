/* Formats a drive, writes both volumes, reads back, lets two offers wait in a line, recovers from a plug pulled within a
 * write, checks the tree, asks how long the offer that is left waits and which drive it is. Built by .ci/run against the
 * proved archive. */
#include <inttypes.h>
#include <stdio.h>
#include <string.h>
#include "pddm.h"

#define BLOCK 32
#define OFFERS 16 /* of a line no more count */

static uint8_t disk[512];
static uint8_t random_bytes[192];
static uint32_t list[23];
static const uint8_t blank[BLOCK];

/* The line: its offers, how many of them wait, and the blocks that their places speak of. */
static pddm_offer line[OFFERS];
static uint32_t waiting;
static uint8_t blocks[3 * BLOCK];

/* The rest of a report line: the addresses of the blocks stored. */
static void print_stores(uint32_t stores)
{
    printf(", stores");
    for (uint32_t i = 0; i < stores; i++)
        printf("%c%u", i ? ',' : ' ', list[i]);
    putchar('\n');
}

/* One write of a text, carrying a hidden text along if there is one. */
static void write_text(uint32_t number, const char *text, int hidden_number, const char *hidden)
{
    uint8_t data[BLOCK] = {0}, block[BLOCK] = {0};
    pddm_needs needs = pddm_write_needs(disk, sizeof disk, number);
    memcpy(data, text, strlen(text));
    if (hidden)
        memcpy(block, hidden, strlen(hidden));
    pddm_written w = pddm_write(disk, sizeof disk, number, data, BLOCK, hidden != NULL, (uint32_t)hidden_number, block,
                                BLOCK, random_bytes, needs.random_blocks * BLOCK, list, needs.stores);
    printf("write %u: answer %u, rounds %u, outcome %u", number, w.answer, w.rounds, w.outcome);
    print_stores(w.stores);
}

/* Lets a hidden text wait in the line; its block stays at its place until the text is on the drive. */
static void enter_text(uint32_t number, uint32_t place, const char *text)
{
    memset(blocks + place * BLOCK, 0, BLOCK);
    memcpy(blocks + place * BLOCK, text, strlen(text));
    pddm_entered entered =
        pddm_enter(disk, sizeof disk, number, place, blocks, sizeof blocks, line, OFFERS, waiting);
    waiting = entered.waiting;
    printf("enter %u at place %u: answer %u, waiting %u\n", number, place, entered.answer, entered.waiting);
}

/* One write of a text that carries the line along. */
static void write_text_with_line(uint32_t number, const char *text)
{
    uint8_t data[BLOCK] = {0};
    pddm_needs needs = pddm_write_needs(disk, sizeof disk, number);
    memcpy(data, text, strlen(text));
    pddm_line_written w =
        pddm_write_line(disk, sizeof disk, number, data, BLOCK, blocks, sizeof blocks, line, OFFERS, waiting,
                        random_bytes, needs.random_blocks * BLOCK, list, needs.stores);
    waiting = w.waiting;
    printf("write %u: answer %u, rounds %u, outcome %u, placed %u, waiting %u", number, w.answer, w.rounds,
           w.outcome, w.placed, w.waiting);
    print_stores(w.stores);
}

/* What a read shows: the text of the block, or that there is none. */
static void show(const char *volume, uint32_t number, pddm_found found)
{
    if (found.kind == PDDM_REFUSED)
        printf("%s %u: refused with %u\n", volume, number, found.answer);
    else if (found.kind == PDDM_BLANK)
        printf("%s %u: never placed\n", volume, number);
    else if (found.kind == PDDM_LENT)
        printf("%s %u: %.*s (waiting)\n", volume, number, BLOCK,
               (const char *)blocks + (size_t)found.address * BLOCK);
    else
        printf("%s %u: %.*s\n", volume, number, BLOCK, (const char *)disk + (size_t)found.address * BLOCK);
}

/* A write of a text within which the plug is pulled, and what is done at plugging in. */
static void pull_plug(uint32_t number, const char *text, size_t stores)
{
    uint8_t data[BLOCK] = {0};
    pddm_needs needs = pddm_write_needs(disk, sizeof disk, number);
    memcpy(data, text, strlen(text));
    pddm_cut cut = pddm_write_cut(disk, sizeof disk, number, data, BLOCK, false, 0, NULL, 0, random_bytes,
                                  needs.random_blocks * BLOCK, list, needs.stores, stores);
    printf("write %u, plug pulled: answer %u, cut %u", number, cut.answer, cut.cut);
    print_stores(cut.stores);
    show("public", number, pddm_public_find(disk, sizeof disk, number, blank, BLOCK));
    printf("recover: %u\n", pddm_recover(disk, sizeof disk));
    show("public", number, pddm_public_find(disk, sizeof disk, number, blank, BLOCK));
}

/* The hidden volume as its owner sees it: what waits comes before what is on the drive. */
static void show_through_line(void)
{
    for (uint32_t n = 0; n < 3; n++)
        show("through the line", n,
             pddm_hidden_find_line(disk, sizeof disk, n, blank, BLOCK, blocks, sizeof blocks, line, OFFERS, waiting));
}

int main(void)
{
    memset(random_bytes, 165, sizeof random_bytes); /* a real caller lends fresh random bytes */
    pddm_size size = pddm_drive_size(BLOCK, 2, 3, 2, 4);
    printf("size: answer %u, blocks %u, bytes %" PRIu64 "\n", size.answer, size.blocks, size.bytes);
    printf("format: %u\n", pddm_format(disk, sizeof disk, BLOCK, 2, 3, 2, 4));
    write_text(0, "minutes of the meeting", 0, NULL);
    write_text(1, "travel expenses", 1, "the source's address");
    write_text(0, "minutes, second draft", 5, "no such hidden number");
    for (uint32_t n = 0; n < 4; n++)
        show("public", n, pddm_public_find(disk, sizeof disk, n, blank, BLOCK));
    for (uint32_t n = 0; n < 3; n++)
        show("hidden", n, pddm_hidden_find(disk, sizeof disk, n, blank, BLOCK));
    show_through_line();
    enter_text(0, 0, "a second source");
    enter_text(1, 1, "the source's new address");
    enter_text(1, 2, "the source has left");
    show_through_line();
    write_text_with_line(2, "agenda");
    show_through_line();
    pull_plug(1, "travel expenses, paid", 5);
    printf("check: %u\n", pddm_check_tree(disk, sizeof disk));
    pddm_wait wait = pddm_wait_rounds(disk, sizeof disk);
    printf("wait: answer %u, rounds %u\n", wait.answer, wait.rounds);
    pddm_drive drive = pddm_identify(disk, sizeof disk);
    printf("drive: answer %u, block size %u, height %u, publics %u, hidden %u, slots %u, head %u\n", drive.answer,
           drive.block_size, drive.height, drive.publics, drive.hidden, drive.slots, drive.head);
    return 0;
}
