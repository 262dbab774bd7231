/* TRAP #15 on a 68010 from C, what it did on the bus, a walk, and the return.
 *
 *     gcc -Wall -Wextra -Werror -I host/include -o entry host/examples/entry.c crates/lent/out/liblent.a */
#include "m68k.h"

#include <stdio.h>
#include <string.h>

static uint8_t store[65536];

static void put_long(uint8_t *at, uint32_t value) {
    for (int i = 0; i < 4; i++) {
        at[i] = (uint8_t)(value >> (24 - 8 * i));
    }
}

int main(void) {
    struct m68k_core core;
    memset(&core, 0, sizeof core);
    core.cpu = m68k_fresh(2);
    core.cpu.flow.pc = 0x1000;
    core.cpu.regs.dar[15] = 0x8000;
    memset(core.bus.responses, 0xFF, sizeof core.bus.responses);
    put_long(store + 0xBC, 0x2000);

    uint32_t log[192];
    struct m68k_raw_call trap = {M68K_TRAP, 15, 0, 0, 0, 0};
    struct m68k_said said = m68k_call(&core, trap, store, sizeof store, log, 192);
    if (said.refused != 0) {
        printf("refused %u\n", said.refused);
        return 1;
    }
    printf("%u cycles, on at %08X, status %04X, A7 %08X\n", said.answer, core.cpu.flow.pc, m68k_get_sr(&core.cpu),
           core.cpu.regs.dar[15]);
    for (uint32_t i = 0; i < said.events; i++) {
        printf("event %u %08X %08X\n", log[3 * i], log[3 * i + 1], log[3 * i + 2]);
    }

    uint32_t rows[4];
    struct m68k_walked walked = m68k_walk(&core, 1, store, sizeof store, rows, 4);
    printf("walk: %u row, %X %04X %08X %03X\n", walked.count, rows[0], rows[1], rows[2], rows[3]);

    struct m68k_said_return back = m68k_return(&core, store, sizeof store);
    printf("back at %08X, A7 %08X\n", back.row.address, core.cpu.regs.dar[15]);

    /* What is refused is refused by number, and nothing has changed. */
    struct m68k_raw_call wrong = {M68K_TAKE_EXCEPTION, 256, 0, 0, 0, 0};
    said = m68k_call(&core, wrong, store, sizeof store, log, 192);
    printf("refused %u, still at %08X\n", said.refused, core.cpu.flow.pc);
    return !(back.refused == 0 && core.cpu.flow.pc == 0x1000 && said.refused == 8);
}
