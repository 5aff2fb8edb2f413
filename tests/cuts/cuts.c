/* cuts [SEED]: pulls the plug after every store of writes as they are compiled and linked, and recovers (document 02,
 * K5). Built by .ci/run against the proved archive; Linux, x86-64.
 *
 * A whole write runs once, with its disk's pages closed to writing: an instruction that stores to them faults, and
 * where it begins another block than the one before, the disk is copied as it is then: after so many whole stores and
 * before the next. The pages are opened for this one instruction, which the processor's trap flag ends, and closed
 * again; an instruction that moves a run of bytes is carried out by hand. So the cuts of a write are taken in order
 * from one run, at every alignment of the disk. Two stores in a row are never to one block.
 *
 * Each cut is to be what pddm_write_cut or pddm_write_line_cut leaves with that bound, and to pass the tree check.
 * Recovered, it is to have the bits of the mapped places and no other, all else as the cut left it, and to show in both
 * volumes what is promised: the number written its new block from store rounds x (k + 3) on, the map block's; a hidden
 * number placed in round r its new block from store (r - 1) x (k + 3) + k + 2 on, the root's; every other number, and
 * every hidden number through the line as it was lent, what it did. From one of the cuts the drive goes on.
 *
 * Prints how many cuts were as promised; ends with status 1 at the first that is not, or where a kind of cut was never
 * met. */
#define _GNU_SOURCE
#include <signal.h>
#include <stdarg.h>
#include <stdio.h>
#include <stdlib.h>
#include <string.h>
#include <sys/mman.h>
#include <ucontext.h>
#include "pddm.h"

#define PAGE 4096
#define NUMBERS 16 /* the most of each volume */
#define OFFERS 4   /* the most of a line here */
#define STORES 128 /* more than a write here has */
#define DRIVES 16  /* of each shape */
#define UNTOUCHED 0xEEEEEEEEu

/* ---- drives ---- */

typedef struct {
    uint32_t block_size, height, publics, hidden, slots;
    size_t offset;   /* of the disk in its first page */
    unsigned pulled; /* how many writes of a drive are cut */
} shape;

/* Blocks of a page, at a page's start and at half a page; small ones with long writes, and with two bitmap blocks. */
static const shape shapes[] = {
    {4096, 2, 4, 3, 6, 0, 2},
    {4096, 3, 3, 4, 5, PAGE / 2, 2},
    {4096, 4, 4, 4, 5, 0, 2},
    {4096, 2, 4, 3, 5, PAGE / 2, 2},
    {32, 2, 9, 6, 10, 0, 24},
    {32, 3, 8, 9, 10, 8, 24},
    {32, 4, 6, 12, 13, PAGE / 2, 24},
    {64, 3, 10, 10, 12, 24, 24},
    {32, 2, 12, 14, 90, 32, 24},
    {32, 4, 14, 8, 60, 0, 24},
};

/* The drive that is written, what each number shows (0: nothing yet), and where the areas are. */
static shape form;
static uint8_t *disk, *pages;
static size_t disk_len, pages_len;
static uint32_t bitmap, root, area;
static uint32_t public_tags[NUMBERS], hidden_tags[NUMBERS], last_tag;

/* What a write lends. */
static uint8_t data[PAGE], blocks[OFFERS * PAGE], blank[PAGE], random_bytes[(NUMBERS + 1) * 4 * PAGE];
static uint32_t list[STORES];
static size_t random_len;

/* A write: its number and its block's tag; its offers, the block of each at its place, and its tag. */
typedef enum { NOTHING, ONE, LINE, KINDS } carried;
typedef struct {
    uint32_t number, tag;
    carried kind;
    uint32_t count;
    pddm_offer line[OFFERS];
    uint32_t tags[OFFERS];
} call;

static const char *const kinds[KINDS] = {"nothing", "an offer", "a line"};

/* What a whole write did: its rounds and stores; of each hidden number its new block's tag and the store of its round's
 * root, where it was placed. */
typedef struct {
    uint32_t rounds, stores;
    uint32_t tags[NUMBERS], roots[NUMBERS];
} whole;

/* ---- what was met, and breaches ---- */

typedef enum { BLOCK_A, NODE, DATA, ROOT, MAP, NEW_BIT, OLD_BIT, HEADER, NO_STORE, ALL, ROUNDS, SIX, FIRST, METS } met;
static const char *const mets[METS] = {
    "block A", "a node", "hidden data", "the root", "the map block", "a new bit", "an old bit of another block",
    "the header", "no store", "all stores", "several rounds", "a number refused with 6", "the first of a line alone"};
static unsigned long met_times[METS], carried_times[KINDS], cuts, writes, recovered, gone_on;
static unsigned drive_number;

static void breach(const call *c, const char *format, ...)
{
    va_list rest;
    printf("cuts: drive %u (B %u, k %u, disk %zu bytes into a page)", drive_number, form.block_size, form.height,
           form.offset);
    if (c)
        printf(", write of %u with %s", c->number, kinds[c->kind]);
    printf(": ");
    va_start(rest, format);
    vprintf(format, rest);
    va_end(rest);
    putchar('\n');
    exit(1);
}

/* ---- numbers and blocks ---- */

static uint64_t seed;

static uint32_t below(uint32_t n)
{
    seed ^= seed << 13;
    seed ^= seed >> 7;
    seed ^= seed << 17;
    return (uint32_t)(seed >> 33) % n;
}

static void fill_randomly(uint8_t *bytes, size_t len)
{
    for (size_t i = 0; i < len; i++)
        bytes[i] = (uint8_t)below(256);
}

/* The word at a place of the block that a tag names. */
static uint32_t word_of(uint32_t tag, uint32_t i)
{
    return tag * 2654435769u + i * 40503u;
}

static void fill_block(uint8_t *block, uint32_t tag)
{
    for (uint32_t i = 0; i < form.block_size / 4; i++) {
        uint32_t word = word_of(tag, i);
        memcpy(block + 4 * i, &word, 4);
    }
}

/* Whether a read of this disk showed the block that a tag names, or the blank for tag 0. */
static int is_shown(const uint8_t *from, pddm_found found, uint32_t tag)
{
    if (found.answer || found.kind == PDDM_REFUSED)
        return 0;
    if (found.kind == PDDM_BLANK)
        return tag == 0;
    const uint8_t *block = (found.kind == PDDM_LENT ? blocks : from) + (size_t)found.address * form.block_size;
    for (uint32_t i = 0; i < form.block_size / 4; i++) {
        uint32_t word = word_of(tag, i);
        if (memcmp(block + 4 * i, &word, 4))
            return 0;
    }
    return tag != 0;
}

/* ---- the watch ---- */

static uint8_t *images; /* the disk before each store */
static uint32_t touched[STORES], touched_count;
static volatile sig_atomic_t strayed;

static void protect(int protection)
{
    if (mprotect(pages, pages_len, protection))
        abort();
}

/* Before a byte is stored: the first of a block begins a store. */
static void note(const uint8_t *at)
{
    if (at < disk || at >= disk + disk_len || touched_count == STORES) {
        strayed = 1;
        return;
    }
    uint32_t block = (uint32_t)((size_t)(at - disk) / form.block_size);
    if (touched_count && touched[touched_count - 1] == block)
        return;
    memcpy(images + touched_count * disk_len, disk, disk_len);
    touched[touched_count++] = block;
}

#define TRAP_FLAG 0x100
#define DOWNWARDS 0x400

/* Carries out `rep movsb`, as memcpy of a block often is one. */
static void move_bytes(greg_t *registers)
{
    while (registers[REG_RCX]) {
        uint8_t *to = (uint8_t *)registers[REG_RDI];
        if (to >= pages && to < pages + pages_len)
            note(to);
        *to = *(const uint8_t *)registers[REG_RSI];
        registers[REG_RDI]++;
        registers[REG_RSI]++;
        registers[REG_RCX]--;
    }
    registers[REG_RIP] += 2;
}

static void faulted(int number, siginfo_t *info, void *context)
{
    greg_t *registers = ((ucontext_t *)context)->uc_mcontext.gregs;
    const uint8_t *at = info->si_addr, *next = (const uint8_t *)registers[REG_RIP];
    if (at < pages || at >= pages + pages_len) {
        signal(number, SIG_DFL); /* not ours */
        return;
    }
    protect(PROT_READ | PROT_WRITE);
    if (next[0] == 0xF3 && next[1] == 0xA4 && !(registers[REG_EFL] & DOWNWARDS)) {
        move_bytes(registers);
        protect(PROT_READ);
        return;
    }
    note(at);
    registers[REG_EFL] |= TRAP_FLAG;
}

static void stepped(int number, siginfo_t *info, void *context)
{
    (void)number;
    (void)info;
    protect(PROT_READ);
    ((ucontext_t *)context)->uc_mcontext.gregs[REG_EFL] &= ~(greg_t)TRAP_FLAG;
}

static void set_handlers(void)
{
    struct sigaction on_fault = {.sa_sigaction = faulted, .sa_flags = SA_SIGINFO};
    struct sigaction on_step = {.sa_sigaction = stepped, .sa_flags = SA_SIGINFO};
    if (sigaction(SIGSEGV, &on_fault, NULL) || sigaction(SIGTRAP, &on_step, NULL))
        abort();
}

/* ---- writes ---- */

/* Any write: of any number, with nothing, an offer, or a line in which a number may come twice or be none. */
static call any_call(void)
{
    call c = {.number = below(form.publics), .tag = ++last_tag, .kind = (carried)below(KINDS)};
    c.count = c.kind == NOTHING ? 0 : c.kind == ONE ? 1 : below(OFFERS + 1);
    fill_block(data, c.tag);
    for (uint32_t place = 0; place < c.count; place++) {
        c.line[place].number = below(form.hidden + (below(8) == 0));
        c.line[place].place = place;
        c.tags[place] = ++last_tag;
        fill_block(blocks + (size_t)place * form.block_size, c.tags[place]);
    }
    fill_randomly(random_bytes, random_len);
    return c;
}

/* Whether an offer counts: of each number the first does, if it is one of the drive's. */
static int is_turn(const call *c, uint32_t place)
{
    for (uint32_t before = 0; before < place; before++)
        if (c->line[before].number == c->line[place].number)
            return 0;
    return c->line[place].number < form.hidden;
}

/* The whole write, and what it did. The head and its slot tell a number's round. */
static whole write_whole(const call *c)
{
    whole w = {0};
    pddm_offer line[OFFERS];
    uint32_t answer, waiting, head = pddm_identify(disk, disk_len).head;
    memcpy(line, c->line, sizeof line);
    if (c->kind == LINE) {
        pddm_line_written written =
            pddm_write_line(disk, disk_len, c->number, data, form.block_size, blocks, sizeof blocks, line, c->count,
                            c->count, random_bytes, random_len, list, STORES);
        answer = written.answer, w.rounds = written.rounds, w.stores = written.stores, waiting = written.waiting;
    } else {
        pddm_written written = pddm_write(disk, disk_len, c->number, data, form.block_size, c->kind == ONE,
                                          c->line[0].number, blocks, form.block_size, random_bytes, random_len, list,
                                          STORES);
        answer = written.answer, w.rounds = written.rounds, w.stores = written.stores;
        waiting = c->count && written.outcome != PDDM_PLACED;
    }
    protect(PROT_READ | PROT_WRITE);
    if (answer)
        breach(c, "refused with %u", answer);
    for (uint32_t place = 0; place < c->count; place++) {
        uint32_t number = c->line[place].number, waits = !is_turn(c, place);
        for (uint32_t i = 0; i < waiting; i++)
            waits |= line[i].number == number;
        if (waits)
            continue;
        uint32_t end = pddm_hidden_find(disk, disk_len, number, blank, form.block_size).address;
        uint32_t round = ((end - area) / (form.height + 1) + form.slots - head) % form.slots + 1;
        w.tags[number] = c->tags[place];
        w.roots[number] = (round - 1) * (form.height + 3) + form.height + 2;
    }
    return w;
}

/* The write with a bound, on a disk. */
static pddm_cut write_bounded(const call *c, uint8_t *on, uint32_t *entries, size_t bound)
{
    uint32_t numbers[OFFERS], places[OFFERS];
    for (uint32_t i = 0; i < OFFERS; i++)
        numbers[i] = c->line[i].number, places[i] = c->line[i].place;
    if (c->kind == LINE)
        return pddm_write_line_cut(on, disk_len, c->number, data, form.block_size, blocks, sizeof blocks, numbers,
                                   c->count, places, c->count, c->count, random_bytes, random_len, entries, STORES,
                                   bound);
    return pddm_write_cut(on, disk_len, c->number, data, form.block_size, c->kind == ONE, numbers[0], blocks,
                          form.block_size, random_bytes, random_len, entries, STORES, bound);
}

/* What each number shows after so many stores of a write. */
static uint32_t public_due(const call *c, const whole *w, uint32_t number, uint32_t bound)
{
    int is_new = number == c->number && bound >= w->rounds * (form.height + 3);
    return is_new ? c->tag : public_tags[number];
}

static uint32_t hidden_due(const whole *w, uint32_t number, uint32_t bound)
{
    return w->tags[number] && bound >= w->roots[number] ? w->tags[number] : hidden_tags[number];
}

/* The drive goes on from here: what its numbers show is what is due after so many stores. */
static void take_over(const call *c, const whole *w, uint32_t bound)
{
    for (uint32_t number = 0; number < form.hidden; number++)
        hidden_tags[number] = hidden_due(w, number, bound);
    public_tags[c->number] = public_due(c, w, c->number, bound);
}

/* ---- cuts ---- */

/* A disk after so many stores is what the form with a bound leaves of a copy of the one before; so is its list. */
static void hold_bounded(const call *c, const whole *w, const uint8_t *before, uint8_t *copy, const uint8_t *image,
                         uint32_t bound)
{
    uint32_t entries[STORES], made = bound < w->stores ? bound : w->stores;
    for (uint32_t i = 0; i < STORES; i++)
        entries[i] = UNTOUCHED;
    memcpy(copy, before, disk_len);
    pddm_cut cut = write_bounded(c, copy, entries, bound);
    if (cut.answer || cut.stores != made || cut.cut != (bound < w->stores))
        breach(c, "bound %u of %u stores: answer %u, stores %u, cut %u", bound, w->stores, cut.answer, cut.stores,
               cut.cut);
    if (memcmp(entries, list, made * sizeof *list))
        breach(c, "bound %u of %u stores: another list than that of the whole write", bound, w->stores);
    for (uint32_t i = made; i < STORES; i++)
        if (entries[i] != UNTOUCHED)
            breach(c, "bound %u of %u stores: list entry %u is touched", bound, w->stores, i);
    for (size_t i = 0; i < disk_len; i++)
        if (copy[i] != image[i])
            breach(c, "bound %u of %u stores: block %zu is not as the compiled write left it", bound, w->stores,
                   i / form.block_size);
}

/* A recovered disk has the bits of the mapped places and no other, and all else as the cut left it. */
static void hold_recovered(const call *c, const uint8_t *cut, const uint8_t *image, uint8_t *copy, uint32_t bound)
{
    size_t start = (size_t)bitmap * form.block_size;
    memcpy(copy, cut, disk_len);
    memset(copy + start, 0, (size_t)root * form.block_size - start);
    for (uint32_t number = 0; number < form.publics; number++) {
        uint32_t place;
        memcpy(&place, cut + form.block_size + 4 * number, 4);
        if (place)
            copy[start + (place - area) / 8] |= (uint8_t)(1 << (place - area) % 8);
    }
    if (memcmp(copy, image, disk_len))
        breach(c, "after store %u: the recovered disk has other bits, or more is changed", bound);
}

/* Every number of a disk shows what is due after so many stores; through the line as it was lent, what it did. */
static void hold_shown(const call *c, const whole *w, const uint8_t *from, uint32_t bound)
{
    for (uint32_t number = 0; number < form.publics; number++)
        if (!is_shown(from, pddm_public_find(from, disk_len, number, blank, form.block_size),
                      public_due(c, w, number, bound)))
            breach(c, "after store %u of %u: public number %u shows something else", bound, w->stores, number);
    for (uint32_t number = 0; number < form.hidden; number++) {
        if (!is_shown(from, pddm_hidden_find(from, disk_len, number, blank, form.block_size),
                      hidden_due(w, number, bound)))
            breach(c, "after store %u of %u: hidden number %u shows something else", bound, w->stores, number);
    }
    for (uint32_t number = 0; c->kind == LINE && number < form.hidden; number++) {
        uint32_t due = hidden_tags[number];
        for (uint32_t place = 0; place < c->count; place++)
            if (c->line[place].number == number && is_turn(c, place))
                due = c->tags[place];
        if (!is_shown(from, pddm_hidden_find_line(from, disk_len, number, blank, form.block_size, blocks,
                                                  sizeof blocks, c->line, c->count, c->count), due))
            breach(c, "after store %u of %u: hidden number %u shows something else through the line", bound, w->stores,
                   number);
    }
}

/* Which kind of store a cut comes after. */
static met last_store(const whole *w, uint32_t bound)
{
    if (bound == 0 || bound == w->stores)
        return bound ? ALL : NO_STORE;
    uint32_t address = list[bound - 1];
    if (address == 0)
        return HEADER;
    if (address < bitmap)
        return MAP;
    if (address < root)
        return list[bound - 2] < bitmap ? NEW_BIT : OLD_BIT;
    if (address == root)
        return ROOT;
    uint32_t place = (address - area) % (form.height + 1);
    return place == 0 ? BLOCK_A : place == form.height ? DATA : NODE;
}

static void count_cut(const call *c, const whole *w, const uint8_t *image, uint32_t bound)
{
    uint32_t placed = 0, is_new = 0;
    for (uint32_t number = 0; number < form.hidden; number++) {
        placed += w->tags[number] != 0;
        is_new += w->tags[number] && bound >= w->roots[number];
    }
    cuts++;
    met_times[last_store(w, bound)]++;
    met_times[ROUNDS] += w->rounds > 1;
    met_times[SIX] += pddm_public_find(image, disk_len, c->number, blank, form.block_size).answer == 6;
    met_times[FIRST] += is_new && is_new < placed;
}

/* One cut: the disk after so many stores, which is recovered. */
static void hold_cut(const call *c, const whole *w, const uint8_t *before, uint8_t *image, uint8_t *copy,
                     uint32_t bound)
{
    uint8_t *cut = copy + disk_len;
    hold_bounded(c, w, before, copy, image, bound);
    uint32_t answer = pddm_check_tree(image, disk_len);
    if (answer)
        breach(c, "after store %u of %u: the tree check answers %u", bound, w->stores, answer);
    count_cut(c, w, image, bound);
    memcpy(cut, image, disk_len);
    for (unsigned again = 0; again < 2; again++) {
        answer = pddm_recover(image, disk_len);
        if (answer)
            breach(c, "after store %u of %u: the recovery is refused with %u", bound, w->stores, answer);
        hold_recovered(c, cut, image, copy, bound);
    }
    hold_shown(c, w, image, bound);
    recovered++;
}

/* A write, cut after each of its stores; the drive goes on from one of the cuts, recovered. */
static void pull_plugs(uint8_t *before, uint8_t *copy)
{
    call c = any_call();
    memcpy(before, disk, disk_len);
    touched_count = 0;
    strayed = 0;
    protect(PROT_READ);
    whole w = write_whole(&c);
    if (strayed || touched_count != w.stores || memcmp(touched, list, w.stores * sizeof *list))
        breach(&c, "it touches other blocks than it lists, %u of %u", touched_count, w.stores);
    memcpy(images + w.stores * disk_len, disk, disk_len);
    for (uint32_t bound = 0; bound <= w.stores; bound++)
        hold_cut(&c, &w, before, images + bound * disk_len, copy, bound);
    hold_bounded(&c, &w, before, copy, disk, w.stores + 1);
    writes++;
    carried_times[c.kind]++;
    uint32_t bound = below(w.stores + 1);
    memcpy(disk, images + bound * disk_len, disk_len);
    take_over(&c, &w, bound);
    gone_on += bound < w.stores;
}

/* A write that is not cut. */
static void write_on(void)
{
    call c = any_call();
    whole w = write_whole(&c);
    hold_shown(&c, &w, disk, w.stores);
    take_over(&c, &w, w.stores);
}

/* ---- runs ---- */

/* A drive of a shape, filled at random: writes, and writes with the plug pulled between them. */
static void run_drive(const shape *of)
{
    form = *of;
    pddm_size size = pddm_drive_size(form.block_size, form.height, form.publics, form.hidden, form.slots);
    uint32_t entries = form.block_size / 4;
    area = size.blocks - form.slots * (form.height + 1), root = area - 1;
    bitmap = 1 + (form.publics + entries - 1) / entries;
    disk_len = (size_t)size.bytes;
    pages_len = (form.offset + disk_len + PAGE - 1) / PAGE * PAGE;
    random_len = (size_t)(form.publics + 1) * form.height * form.block_size;
    memset(public_tags, 0, sizeof public_tags);
    memset(hidden_tags, 0, sizeof hidden_tags);
    pages = mmap(NULL, pages_len, PROT_READ | PROT_WRITE, MAP_PRIVATE | MAP_ANONYMOUS, -1, 0);
    images = malloc((STORES + 1) * disk_len);
    uint8_t *before = malloc(disk_len), *copy = malloc(2 * disk_len);
    if (pages == MAP_FAILED || !images || !before || !copy)
        abort();
    disk = pages + form.offset;
    fill_randomly(disk, disk_len);
    if (pddm_format(disk, disk_len, form.block_size, form.height, form.publics, form.hidden, form.slots))
        breach(NULL, "not formatted");
    for (uint32_t i = below(3 * form.slots); i > 0; i--)
        write_on();
    for (unsigned i = 0; i < form.pulled; i++) {
        pull_plugs(before, copy);
        for (uint32_t more = below(4); more > 0; more--)
            write_on();
    }
    free(copy);
    free(before);
    free(images);
    munmap(pages, pages_len);
}

int main(int count, char **arguments)
{
    seed = (count > 1 ? strtoull(arguments[1], NULL, 10) : 1) * 0x9E3779B97F4A7C15u | 1;
    setvbuf(stdout, NULL, _IOLBF, 0);
    set_handlers();
    for (unsigned turn = 0; turn < DRIVES; turn++)
        for (size_t i = 0; i < sizeof shapes / sizeof *shapes; i++, drive_number++)
            run_drive(&shapes[i]);
    for (unsigned i = 0; i < METS; i++)
        if (!met_times[i]) {
            printf("cuts: never met: %s\n", mets[i]);
            return 1;
        }
    printf("cuts: %lu cuts of %lu writes (%lu with nothing, %lu with an offer, %lu with a line), %lu recovered, "
           "%lu gone on from, all as promised\n",
           cuts, writes, carried_times[NOTHING], carried_times[ONE], carried_times[LINE], recovered, gone_on);
    return 0;
}
