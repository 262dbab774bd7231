/* Random calls, returns and walks over blocks of exactly the size that is lent. usage: lent TURNS [SEED [exact]]
 *
 * What is looked at: nothing is written beside the blocks, a refused call leaves every field of the record, an accepted one leaves flags of
 * 0 and 1, and a flag of any other byte but 0 does what a flag of 1 does. With
 * `exact` the blocks have no guards, so that valgrind sees a read or a write outside them, and a block that is lost. */
#include "m68k.h"

#include <stdio.h>
#include <stdlib.h>
#include <string.h>

#define GUARD 0x5A
#define SIDE 64

static uint64_t state;

static uint32_t next(void) {
    state = state * 6364136223846793005u + 1442695040888963407u;
    return (uint32_t)(state >> 32);
}

static uint32_t below(uint32_t limit) { return next() % limit; }

static void fail(const char *what, unsigned long turn) {
    fprintf(stderr, "lent: error: turn %lu: %s\n", turn, what);
    exit(1);
}

/* A block of n bytes with guards on both sides; `exact` has none, so that valgrind sees its ends. */
struct block {
    uint8_t *all, *bytes;
    size_t n;
    int exact;
};

static struct block block_of(size_t n, int exact) {
    struct block b = {NULL, NULL, n, exact};
    size_t sides = exact ? 0 : 2 * SIDE;
    b.all = malloc(n + sides ? n + sides : 1);
    if (!b.all) {
        exit(2);
    }
    memset(b.all, GUARD, n + sides);
    b.bytes = b.all + (exact ? 0 : SIDE);
    return b;
}

static int intact(const struct block *b) {
    for (size_t i = 0; !b->exact && i < SIDE; i++) {
        if (b->all[i] != GUARD || b->bytes[b->n + i] != GUARD) {
            return 0;
        }
    }
    return 1;
}

/* The bytes of a record that are flags. */
static void flags_of(struct m68k_cpu *c, uint8_t *flags[8]) {
    uint8_t *all[8] = {&c->flow.exception_processing, &c->flow.change_of_flow, &c->flow.loop_mode, &c->queue.precise_bus,
                       &c->fault.instruction_exception_vector.some, &c->fault.last_exception_vector.some,
                       &c->fault.mmu_fc_override.some, &c->fault_resume.some};
    memcpy(flags, all, sizeof all);
}

/* The fields of a record and a bus, without what lies between them. */
struct fields {
    struct m68k_regs regs;
    struct m68k_bus bus;
    uint32_t words[40];
    uint32_t dar[16];
};

static struct fields fields_of(const struct m68k_core *core) {
    const struct m68k_cpu *c = &core->cpu;
    const struct m68k_flow *f = &c->flow;
    const struct m68k_flags *g = &c->flags;
    const struct m68k_queue *q = &c->queue;
    const struct m68k_fault *t = &c->fault;
    const struct m68k_resume *r = &c->fault_resume;
    uint32_t words[40] = {f->ppc, f->pc, f->vbr, f->ir, f->fpiar, f->cpu_type, f->run_mode, f->stopped, f->exception_processing,
                          f->change_of_flow, f->loop_mode, (uint32_t)f->cycles_remaining, g->sr_save, q->prefetch_queue[0],
                          q->prefetch_queue[1], q->prefetch_count, q->pending_sync_clocks, q->precise_bus,
                          t->instruction_exception_vector.some, t->instruction_exception_vector.value, t->last_exception_vector.some,
                          t->last_exception_vector.value, t->pending_fault_cause, t->mmu_fc_override.some, t->mmu_fc_override.value,
                          t->pending_fault_wdata, r->some, r->pc, r->sr, g->int_mask, g->int_level, g->t1_flag, g->t0_flag, g->s_flag,
                          g->m_flag, g->x_flag, g->n_flag, g->not_z_flag, g->v_flag, g->c_flag};
    struct fields all;
    all.regs = c->regs;
    all.bus = core->bus;
    memcpy(all.words, words, sizeof words);
    memcpy(all.dar, r->dar, sizeof all.dar);
    return all;
}

static int same_fields(const struct m68k_core *a, const struct m68k_core *b) {
    struct fields x = fields_of(a), y = fields_of(b);
    return memcmp(&x, &y, sizeof x) == 0;
}

static void random_core(struct m68k_core *core, uint32_t base, uint32_t len) {
    memset(core, 0, sizeof *core);
    core->cpu = m68k_fresh((uint8_t)below(13));
    for (int i = 0; i < 16; i++) {
        core->cpu.regs.dar[i] = core->cpu.regs.dar_save[i] = next();
    }
    for (int i = 0; i < 8; i++) {
        core->cpu.regs.sp[i] = base + (below(len + 64) & ~1u);
        core->bus.responses[i] = below(2) ? 0xFFFFFFFFu : below(300);
    }
    core->cpu.regs.dar[15] = base + (below(len + 64) & (below(10) ? ~1u : ~0u));
    m68k_set_sr(&core->cpu, (uint16_t)next());
    core->cpu.flow.pc = next();
    core->cpu.flow.vbr = base + (below(0x400) & ~1u);
    core->cpu.flags.int_level = below(9);
    core->cpu.flow.run_mode = below(20) == 0;
    core->cpu.fault.pending_fault_cause = (uint8_t)below(12);
    core->cpu.fault.mmu_fc_override.value = (uint8_t)below(9);
    core->cpu.flow.cycles_remaining = (int32_t)next();
    core->bus.base = base;
    core->bus.windows = below(4) ? 0 : below(10);
    for (int i = 0; i < 8; i++) {
        core->bus.starts[i] = base + below(len + 1);
        core->bus.lengths[i] = below(8);
    }
    core->bus.events = next();
    uint8_t *flags[8];
    flags_of(&core->cpu, flags);
    for (int i = 0; i < 8; i++) {
        *flags[i] = (uint8_t)(below(2) ? 0 : below(256));
    }
}

struct outcome {
    uint32_t numbers[5];
};

/* Makes the call, return or walk; what it says, in numbers. */
static struct outcome act(struct m68k_core *core, uint32_t what, struct m68k_raw_call call, struct block *store, struct block *log,
                          struct block *rows) {
    struct outcome out = {{0, 0, 0, 0, 0}};
    if (what == 0) {
        struct m68k_said_return said = m68k_return(core, store->bytes, store->n);
        struct outcome seen = {{said.refused, said.row.format, said.row.status, said.row.address, said.row.offset}};
        out = seen;
    } else if (what == 1) {
        struct m68k_walked said = m68k_walk(core, call.a % 5, store->bytes, store->n, (uint32_t *)rows->bytes, rows->n / 4);
        out.numbers[0] = said.refused;
        out.numbers[1] = said.count;
    } else {
        struct m68k_said said = m68k_call(core, call, store->bytes, store->n, (uint32_t *)log->bytes, log->n / 4);
        out.numbers[0] = said.refused;
        out.numbers[1] = said.answer;
        out.numbers[2] = said.events;
    }
    return out;
}

static unsigned long accepted, refused, odd_flags;

static void turn(unsigned long n, int exact) {
    static const uint32_t bases[] = {0, 0x1000, 0xFF0000, 0xFFFF0000u};
    static const uint32_t lengths[] = {0, 191, 65536, 65537};
    uint32_t base = bases[below(4)], len = below(60) ? 64 + below(4000) : lengths[below(4)];
    struct block store = block_of(len, exact), log = block_of(4 * (below(20) ? 192 : below(200)), exact);
    struct block rows = block_of(4 * below(20), exact);
    struct block core = block_of(sizeof(struct m68k_core), exact), tidy = block_of(sizeof(struct m68k_core), exact);
    struct m68k_core before, *lent = (struct m68k_core *)core.bytes, *same = (struct m68k_core *)tidy.bytes;
    random_core(lent, base, len);
    for (size_t i = 0; i < store.n; i++) {
        store.bytes[i] = (uint8_t)(below(3) ? 0 : next());
    }
    memcpy(&before, lent, sizeof before);
    memcpy(same, lent, sizeof before);
    uint8_t *flags[8];
    flags_of(&same->cpu, flags);
    for (int i = 0; i < 8; i++) {
        odd_flags += *flags[i] > 1;
        *flags[i] = *flags[i] != 0;
    }
    struct block store2 = block_of(len, exact), log2 = block_of(log.n, exact), rows2 = block_of(rows.n, exact);
    memcpy(store2.bytes, store.bytes, len);
    uint32_t what = below(8);
    struct m68k_raw_call call = {below(33), next(), next(), next(), next(), next()};
    if (below(2)) {
        call.a = base + below(len + 1);
    } else if (below(2)) {
        call.a = below(257);
    }
    struct outcome one = act(lent, what, call, &store, &log, &rows), two = act(same, what, call, &store2, &log2, &rows2);
    struct block *all[] = {&store, &log, &rows, &core, &tidy, &store2, &log2, &rows2};
    for (int i = 0; i < 8; i++) {
        if (!intact(all[i])) {
            fail("written outside what was lent", n);
        }
    }
    if (memcmp(&one, &two, sizeof one) || memcmp(store.bytes, store2.bytes, len) || memcmp(log.bytes, log2.bytes, log.n) ||
        memcmp(rows.bytes, rows2.bytes, rows.n)) {
        fail("a flag byte other than 0 and 1 is no flag of 1", n);
    }
    if (one.numbers[0] != 0 || what == 1) {
        if (!same_fields(lent, &before)) {
            fail("a refused call, or a walk, changed the record", n);
        }
    } else {
        flags_of(&lent->cpu, flags);
        for (int i = 0; i < 8; i++) {
            if (*flags[i] > 1) {
                fail("an accepted call left a flag above 1", n);
            }
        }
        if (!same_fields(lent, same)) {
            fail("a flag byte other than 0 and 1 leads to another record", n);
        }
    }
    if (one.numbers[0] != 0) {
        refused++;
    } else {
        accepted++;
    }
    for (int i = 0; i < 8; i++) {
        free(all[i]->all);
    }
}

int main(int count, char **words) {
    unsigned long turns = count > 1 ? strtoul(words[1], NULL, 10) : 0;
    int exact = count > 3;
    state = count > 2 ? strtoul(words[2], NULL, 10) : 1;
    for (unsigned long n = 0; n < turns; n++) {
        turn(n, exact);
    }
    printf("lent: %lu turns: %lu accepted, %lu refused, %lu flags of another byte than 0 and 1\n", turns, accepted, refused, odd_flags);
    return turns == 0 || accepted < turns / 8 || refused < turns / 50 || odd_flags == 0;
}
