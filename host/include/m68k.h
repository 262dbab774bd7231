/* Written by mirror.py from the Rattle sources: do not edit.
 *
 * Exception, fault, trace and interrupt entry of the M68000 family: the functions of liblent.a (`rt lib` in crates/lent).
 * docs/HOST.md has what is proved and what is assumed; docs/REFERENCE.md the kinds, refusals and events.
 *
 * Every value of every field has a meaning; the bytes between fields have none. A byte that is a flag (exception_processing,
 * change_of_flow, loop_mode, precise_bus and each `some`) is set where it is not 0; an accepted call leaves 0 or 1 in it. Where `some` is 0
 * the value beside it means nothing.
 * A pointer is to as many elements as the length behind it says, none of them shared with another pointer of the call; with a length of 0
 * it is not followed, but must not be null. */
#ifndef M68K_H
#define M68K_H

#include <stddef.h>
#include <stdint.h>

#ifdef __cplusplus
extern "C" {
#endif

struct m68k_raw_call {
    uint32_t number;
    uint32_t a;
    uint32_t b;
    uint32_t c;
    uint32_t d;
    uint32_t e;
};

struct m68k_regs {
    uint32_t dar[16];
    uint32_t dar_save[16];
    uint32_t sp[8];
};

struct m68k_flags {
    uint32_t t1_flag;
    uint32_t t0_flag;
    uint32_t s_flag;
    uint32_t m_flag;
    uint32_t x_flag;
    uint32_t n_flag;
    uint32_t not_z_flag;
    uint32_t v_flag;
    uint32_t c_flag;
    uint32_t int_mask;
    uint32_t int_level;
    uint16_t sr_save;
};

struct m68k_bus {
    uint32_t base;
    uint32_t windows;
    uint32_t starts[8];
    uint32_t lengths[8];
    uint32_t responses[8];
    uint32_t events;
};

struct m68k_row {
    uint32_t format;
    uint32_t status;
    uint32_t address;
    uint32_t offset;
};

struct m68k_walked {
    uint32_t refused;
    uint32_t count;
};

struct m68k_vector {
    uint8_t some;
    uint32_t value;
};

struct m68k_code {
    uint8_t some;
    uint8_t value;
};

struct m68k_flow {
    uint32_t ppc;
    uint32_t pc;
    uint32_t vbr;
    uint32_t ir;
    uint32_t fpiar;
    uint8_t cpu_type;
    uint32_t run_mode;
    uint32_t stopped;
    uint8_t exception_processing;
    uint8_t change_of_flow;
    uint8_t loop_mode;
    int32_t cycles_remaining;
};

struct m68k_queue {
    uint16_t prefetch_queue[2];
    uint8_t prefetch_count;
    uint32_t pending_sync_clocks;
    uint8_t precise_bus;
};

struct m68k_fault {
    struct m68k_vector instruction_exception_vector;
    struct m68k_vector last_exception_vector;
    uint8_t pending_fault_cause;
    struct m68k_code mmu_fc_override;
    uint32_t pending_fault_wdata;
};

struct m68k_resume {
    uint8_t some;
    uint32_t pc;
    uint16_t sr;
    uint32_t dar[16];
};

struct m68k_cpu {
    struct m68k_regs regs;
    struct m68k_flow flow;
    struct m68k_flags flags;
    struct m68k_queue queue;
    struct m68k_fault fault;
    struct m68k_resume fault_resume;
};

struct m68k_core {
    struct m68k_cpu cpu;
    struct m68k_bus bus;
};

struct m68k_said {
    uint32_t refused;
    uint32_t answer;
    uint32_t events;
};

struct m68k_said_return {
    uint32_t refused;
    struct m68k_row row;
};

/* The layout that the archive was compiled for, asserted where the language can. */
#if defined(__cplusplus) && __cplusplus >= 201103L
#define M68K_ASSERT static_assert
#elif defined(__STDC_VERSION__) && __STDC_VERSION__ >= 201112L
#define M68K_ASSERT _Static_assert
#endif
#ifdef M68K_ASSERT
M68K_ASSERT(sizeof(size_t) == 8, "size_t");
M68K_ASSERT(sizeof(struct m68k_raw_call) == 24, "m68k_raw_call");
M68K_ASSERT(offsetof(struct m68k_raw_call, number) == 0, "number");
M68K_ASSERT(offsetof(struct m68k_raw_call, a) == 4, "a");
M68K_ASSERT(offsetof(struct m68k_raw_call, b) == 8, "b");
M68K_ASSERT(offsetof(struct m68k_raw_call, c) == 12, "c");
M68K_ASSERT(offsetof(struct m68k_raw_call, d) == 16, "d");
M68K_ASSERT(offsetof(struct m68k_raw_call, e) == 20, "e");
M68K_ASSERT(sizeof(struct m68k_regs) == 160, "m68k_regs");
M68K_ASSERT(offsetof(struct m68k_regs, dar) == 0, "dar");
M68K_ASSERT(offsetof(struct m68k_regs, dar_save) == 64, "dar_save");
M68K_ASSERT(offsetof(struct m68k_regs, sp) == 128, "sp");
M68K_ASSERT(sizeof(struct m68k_flags) == 48, "m68k_flags");
M68K_ASSERT(offsetof(struct m68k_flags, t1_flag) == 0, "t1_flag");
M68K_ASSERT(offsetof(struct m68k_flags, t0_flag) == 4, "t0_flag");
M68K_ASSERT(offsetof(struct m68k_flags, s_flag) == 8, "s_flag");
M68K_ASSERT(offsetof(struct m68k_flags, m_flag) == 12, "m_flag");
M68K_ASSERT(offsetof(struct m68k_flags, x_flag) == 16, "x_flag");
M68K_ASSERT(offsetof(struct m68k_flags, n_flag) == 20, "n_flag");
M68K_ASSERT(offsetof(struct m68k_flags, not_z_flag) == 24, "not_z_flag");
M68K_ASSERT(offsetof(struct m68k_flags, v_flag) == 28, "v_flag");
M68K_ASSERT(offsetof(struct m68k_flags, c_flag) == 32, "c_flag");
M68K_ASSERT(offsetof(struct m68k_flags, int_mask) == 36, "int_mask");
M68K_ASSERT(offsetof(struct m68k_flags, int_level) == 40, "int_level");
M68K_ASSERT(offsetof(struct m68k_flags, sr_save) == 44, "sr_save");
M68K_ASSERT(sizeof(struct m68k_bus) == 108, "m68k_bus");
M68K_ASSERT(offsetof(struct m68k_bus, base) == 0, "base");
M68K_ASSERT(offsetof(struct m68k_bus, windows) == 4, "windows");
M68K_ASSERT(offsetof(struct m68k_bus, starts) == 8, "starts");
M68K_ASSERT(offsetof(struct m68k_bus, lengths) == 40, "lengths");
M68K_ASSERT(offsetof(struct m68k_bus, responses) == 72, "responses");
M68K_ASSERT(offsetof(struct m68k_bus, events) == 104, "events");
M68K_ASSERT(sizeof(struct m68k_row) == 16, "m68k_row");
M68K_ASSERT(offsetof(struct m68k_row, format) == 0, "format");
M68K_ASSERT(offsetof(struct m68k_row, status) == 4, "status");
M68K_ASSERT(offsetof(struct m68k_row, address) == 8, "address");
M68K_ASSERT(offsetof(struct m68k_row, offset) == 12, "offset");
M68K_ASSERT(sizeof(struct m68k_walked) == 8, "m68k_walked");
M68K_ASSERT(offsetof(struct m68k_walked, refused) == 0, "refused");
M68K_ASSERT(offsetof(struct m68k_walked, count) == 4, "count");
M68K_ASSERT(sizeof(struct m68k_vector) == 8, "m68k_vector");
M68K_ASSERT(offsetof(struct m68k_vector, some) == 0, "some");
M68K_ASSERT(offsetof(struct m68k_vector, value) == 4, "value");
M68K_ASSERT(sizeof(struct m68k_code) == 2, "m68k_code");
M68K_ASSERT(offsetof(struct m68k_code, some) == 0, "some");
M68K_ASSERT(offsetof(struct m68k_code, value) == 1, "value");
M68K_ASSERT(sizeof(struct m68k_flow) == 40, "m68k_flow");
M68K_ASSERT(offsetof(struct m68k_flow, ppc) == 0, "ppc");
M68K_ASSERT(offsetof(struct m68k_flow, pc) == 4, "pc");
M68K_ASSERT(offsetof(struct m68k_flow, vbr) == 8, "vbr");
M68K_ASSERT(offsetof(struct m68k_flow, ir) == 12, "ir");
M68K_ASSERT(offsetof(struct m68k_flow, fpiar) == 16, "fpiar");
M68K_ASSERT(offsetof(struct m68k_flow, cpu_type) == 20, "cpu_type");
M68K_ASSERT(offsetof(struct m68k_flow, run_mode) == 24, "run_mode");
M68K_ASSERT(offsetof(struct m68k_flow, stopped) == 28, "stopped");
M68K_ASSERT(offsetof(struct m68k_flow, exception_processing) == 32, "exception_processing");
M68K_ASSERT(offsetof(struct m68k_flow, change_of_flow) == 33, "change_of_flow");
M68K_ASSERT(offsetof(struct m68k_flow, loop_mode) == 34, "loop_mode");
M68K_ASSERT(offsetof(struct m68k_flow, cycles_remaining) == 36, "cycles_remaining");
M68K_ASSERT(sizeof(struct m68k_queue) == 16, "m68k_queue");
M68K_ASSERT(offsetof(struct m68k_queue, prefetch_queue) == 0, "prefetch_queue");
M68K_ASSERT(offsetof(struct m68k_queue, prefetch_count) == 4, "prefetch_count");
M68K_ASSERT(offsetof(struct m68k_queue, pending_sync_clocks) == 8, "pending_sync_clocks");
M68K_ASSERT(offsetof(struct m68k_queue, precise_bus) == 12, "precise_bus");
M68K_ASSERT(sizeof(struct m68k_fault) == 24, "m68k_fault");
M68K_ASSERT(offsetof(struct m68k_fault, instruction_exception_vector) == 0, "instruction_exception_vector");
M68K_ASSERT(offsetof(struct m68k_fault, last_exception_vector) == 8, "last_exception_vector");
M68K_ASSERT(offsetof(struct m68k_fault, pending_fault_cause) == 16, "pending_fault_cause");
M68K_ASSERT(offsetof(struct m68k_fault, mmu_fc_override) == 17, "mmu_fc_override");
M68K_ASSERT(offsetof(struct m68k_fault, pending_fault_wdata) == 20, "pending_fault_wdata");
M68K_ASSERT(sizeof(struct m68k_resume) == 76, "m68k_resume");
M68K_ASSERT(offsetof(struct m68k_resume, some) == 0, "some");
M68K_ASSERT(offsetof(struct m68k_resume, pc) == 4, "pc");
M68K_ASSERT(offsetof(struct m68k_resume, sr) == 8, "sr");
M68K_ASSERT(offsetof(struct m68k_resume, dar) == 12, "dar");
M68K_ASSERT(sizeof(struct m68k_cpu) == 364, "m68k_cpu");
M68K_ASSERT(offsetof(struct m68k_cpu, regs) == 0, "regs");
M68K_ASSERT(offsetof(struct m68k_cpu, flow) == 160, "flow");
M68K_ASSERT(offsetof(struct m68k_cpu, flags) == 200, "flags");
M68K_ASSERT(offsetof(struct m68k_cpu, queue) == 248, "queue");
M68K_ASSERT(offsetof(struct m68k_cpu, fault) == 264, "fault");
M68K_ASSERT(offsetof(struct m68k_cpu, fault_resume) == 288, "fault_resume");
M68K_ASSERT(sizeof(struct m68k_core) == 472, "m68k_core");
M68K_ASSERT(offsetof(struct m68k_core, cpu) == 0, "cpu");
M68K_ASSERT(offsetof(struct m68k_core, bus) == 364, "bus");
M68K_ASSERT(sizeof(struct m68k_said) == 12, "m68k_said");
M68K_ASSERT(offsetof(struct m68k_said, refused) == 0, "refused");
M68K_ASSERT(offsetof(struct m68k_said, answer) == 4, "answer");
M68K_ASSERT(offsetof(struct m68k_said, events) == 8, "events");
M68K_ASSERT(sizeof(struct m68k_said_return) == 20, "m68k_said_return");
M68K_ASSERT(offsetof(struct m68k_said_return, refused) == 0, "refused");
M68K_ASSERT(offsetof(struct m68k_said_return, row) == 4, "row");
#undef M68K_ASSERT
#endif

/* The calls by number, with their arguments: a byte or a word is the low bits of its argument, a flag is set where it is not 0, a
 * cause is 0 for none or 1 to 8. `answer` is what stands behind the arrow. */
enum m68k_number {
    M68K_TAKE_EXCEPTION = 1, /* a long -> cycles */
    M68K_TRAP = 2, /* a byte -> cycles */
    M68K_TAKE_GROUP2_EXCEPTION = 3, /* a long -> cycles */
    M68K_EXCEPTION_CHK = 4, /* -> cycles */
    M68K_EXCEPTION_ZERO_DIVIDE = 5, /* -> cycles */
    M68K_EXCEPTION_PRIVILEGE = 6, /* -> cycles */
    M68K_EXCEPTION_TRACE = 7, /* -> cycles */
    M68K_EXCEPTION_ADDRESS_ERROR = 8, /* a long, b flag, c flag -> cycles */
    M68K_EXCEPTION_BUS_ERROR = 9, /* a long, b flag, c flag, d long, e cause -> cycles */
    M68K_TAKE_FP_UNIMP_060 = 10, /* a long -> cycles */
    M68K_TAKE_FP_DISABLED_060 = 11, /* -> cycles */
    M68K_TAKE_ALINE_EXCEPTION = 12, /* -> cycles */
    M68K_TAKE_FLINE_EXCEPTION = 13, /* -> cycles */
    M68K_TAKE_TRAP_EXCEPTION = 14, /* a byte -> cycles */
    M68K_TAKE_BKPT_EXCEPTION = 15, /* -> cycles */
    M68K_TAKE_ILLEGAL_EXCEPTION = 16, /* -> cycles */
    M68K_TRIGGER_ADDRESS_ERROR = 17, /* a long, b flag, c flag -> 0 */
    M68K_TRIGGER_BUS_ERROR = 18, /* a long, b flag, c flag, d long -> 0 */
    M68K_CHECK_TRACE = 19, /* -> flag */
    M68K_SET_IRQ = 20, /* a byte -> 0 */
    M68K_CHECK_INTERRUPTS = 21, /* -> flag */
    M68K_CHECK_AND_SERVICE_INTERRUPTS = 22, /* -> flag */
    M68K_READ_16 = 23, /* a long -> value */
    M68K_READ_32 = 24, /* a long -> value */
    M68K_WRITE_16 = 25, /* a long, b word -> 0 */
    M68K_WRITE_32 = 26, /* a long, b long -> 0 */
    M68K_PUSH_16 = 27, /* a word -> 0 */
    M68K_PUSH_32 = 28, /* a long -> 0 */
    M68K_PREFETCH_FIRST = 29, /* -> 0 */
    M68K_PREFETCH_SECOND = 30 /* -> 0 */
};

/* Performs the call on the record, the bus and the lent store and log, or refuses it: then every field of the record,
 * flags too, and store and log are as they came. A log has 192 words at least; each event is three of them. `answer` is the
 * cycles of an entry, the value of a read, 0 or 1 of a check. */
struct m68k_said m68k_call(struct m68k_core *core, struct m68k_raw_call call, uint8_t *store, size_t store_len, uint32_t *log, size_t log_len);

/* `take_exception` alone: what m68k_call says and leaves with M68K_TAKE_EXCEPTION and the vector. */
struct m68k_said m68k_take_exception(struct m68k_core *core, uint32_t vector, uint8_t *store, size_t store_len, uint32_t *log, size_t log_len);

/* The interrupt call alone: what m68k_call says and leaves with M68K_CHECK_AND_SERVICE_INTERRUPTS. */
struct m68k_said m68k_check_and_service_interrupts(struct m68k_core *core, uint8_t *store, size_t store_len, uint32_t *log, size_t log_len);

/* Returns from the entry whose frame lies at A7; `row` is what its frame held, zeros where `refused` is not 0. */
struct m68k_said_return m68k_return(struct m68k_core *core, const uint8_t *store, size_t store_len);

/* Makes n returns on a copy and lays what each read into `rows`, four words each: format, status, address, offset. */
struct m68k_walked m68k_walk(const struct m68k_core *core, uint32_t n, const uint8_t *store, size_t store_len, uint32_t *rows, size_t rows_len);

/* The record of a processor of that kind after it was made. */
struct m68k_cpu m68k_fresh(uint8_t kind);

/* The status register. */
uint32_t m68k_get_sr(const struct m68k_cpu *cpu);

/* Sets the status register under the kind's mask, M only with S, and swaps the stacks; answers the status as it reads then. */
uint32_t m68k_set_sr(struct m68k_cpu *cpu, uint16_t sr);

#ifdef __cplusplus
}
#endif

#endif
