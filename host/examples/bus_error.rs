//! A bus error: a read of bytes that fault, on a 68010, and its frame of 58 bytes.
//!
//! The guest reads a long from a device that does not answer. The guarded read raises the bus error itself: the frame is
//! on the stack, the handler's address in the program counter, and `run_mode` says that the instruction is to be given up.
//! What the instruction still does to registers is undone by the state in `fault_resume`.

use m68k_host::{Answer, Call, Core, Event, Kind, Record, Refusal, Resume, Window};

/// The instruction is given up: what it did since to registers and status is undone. The Rust swaps no stacks here and
/// `set_sr` does, so the saved pointers are put back behind it, and the registers with A7.
fn give_up(core: &mut Core) {
    if let Some(Resume { pc, sr, dar }) = core.fault_resume() {
        let sp = *core.sp();
        core.set_pc(pc);
        core.set_sr(sr);
        (*core.sp_mut(), *core.dar_mut()) = (sp, dar);
        core.set_fault_resume(None);
    }
    if core.stopped() == 0 {
        core.set_run_mode(0);
    }
}

fn main() -> Result<(), Refusal> {
    let mut core = Core::fresh(Kind::M68010);
    let (mut store, mut log) = (vec![0; 65_536], [0; 192]);
    store[2 * 4..2 * 4 + 4].copy_from_slice(&0x2000_u32.to_be_bytes());
    core.set_windows(&[Window { start: 0xA000, length: 0x100 }]);
    (core.dar_mut()[15], core.dar_save_mut()[15]) = (0x8000, 0x8000);
    core.set_ppc(0x1000);
    core.set_pc(0x1004);
    core.set_sr_save(core.get_sr());

    let answer = core.call(Call::Read32(0xA010), &mut store, &mut log)?;

    for event in answer.events(&log) {
        println!("{event}");
    }
    assert!(matches!(answer, Answer::Value { value: 0, .. }));
    let first = answer.events(&log).find(|event| matches!(event, Event::Read { .. }));
    assert!(matches!(first, Some(Event::Read { address: 0xA010, served: false, .. })));
    assert_eq!((core.run_mode(), core.dar()[15]), (1, 0x8000 - 58));
    let frame = &store[core.dar()[15] as usize..0x8000];
    assert_eq!(frame[6..8], [0x80, 0x08], "format 8, vector 2");

    // Whatever the rest of the instruction does to registers and status, the handler starts with what the entry left.
    let entered = Record { fault_resume: None, run_mode: 0, ..core.record() };
    core.set_pc(0x1006);
    core.dar_mut()[15] -= 4;
    core.set_s_flag(0);
    give_up(&mut core);
    assert_eq!(core.record(), entered);
    println!("handler at {:08X}, A7 {:08X}", core.pc(), core.dar()[15]);
    assert_eq!(core.pc(), 0x2000);

    // The device answers now: the handler returns, and the instruction is made again.
    core.set_windows(&[]);
    let row = core.return_from(&store)?;
    assert_eq!((row.format, row.address, core.dar()[15]), (8, 0x1000, 0x8000));
    let again = core.call(Call::Read32(0xA010), &mut store, &mut log)?;
    println!("back at {:08X}; the read made again: {again}", row.address);
    assert_eq!(core.run_mode(), 0);
    Ok(())
}
