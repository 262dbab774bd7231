//! A nest shown by a walk: a trap, in its handler a divide by zero, in that one's handler an interrupt on another stack.
//!
//! The walk reads what the returns would give back, latest first, off the stack alone; then the returns are made.

use m68k_host::{Call, Core, Kind, Refusal, Row};

fn main() -> Result<(), Refusal> {
    let mut core = Core::fresh(Kind::M68020);
    let (mut store, mut log) = (vec![0; 65_536], [0; 192]);
    // The master stack in use, the interrupt stack beside it; handlers at 0x2000, 0x3000 and 0x4000.
    (core.sp_mut()[4], core.dar_mut()[15]) = (0x5000, 0x6000);
    core.set_m_flag(2);
    core.set_int_mask(0);
    for (vector, handler) in [(32 + 5, 0x2000_u32), (5, 0x3000), (24 + 3, 0x4000)] {
        store[vector * 4..vector * 4 + 4].copy_from_slice(&handler.to_be_bytes());
    }
    core.set_pc(0x1002);
    core.call(Call::Trap(5), &mut store, &mut log)?;
    core.set_ppc(0x2010);
    core.set_pc(0x2012);
    core.call(Call::ExceptionZeroDivide, &mut store, &mut log)?;
    core.set_pc(0x3004);
    core.call(Call::SetIrq(3), &mut store, &mut log)?;
    core.call(Call::CheckAndServiceInterrupts, &mut store, &mut log)?;

    let mut buffer = [0; 12];
    let walked = core.walk(3, &store, &mut buffer);
    assert_eq!(walked.refused, None);
    println!("format status address  offset");
    let rows: Vec<Row> = walked.rows(&buffer).collect();
    for row in &rows {
        println!("{row}");
    }
    assert_eq!(rows.iter().map(|row| row.address).collect::<Vec<_>>(), [0x3004, 0x2012, 0x1002]);
    // The interrupt left a frame on each stack: its row names format 1, which lies on top.
    assert_eq!(rows.iter().map(|row| row.format).collect::<Vec<_>>(), [1, 2, 0]);

    for row in rows {
        assert_eq!(core.return_from(&store)?, row);
        assert_eq!((core.pc(), u32::from(core.get_sr())), (row.address, row.status));
        println!("back at {:08X}, A7 {:08X}", core.pc(), core.dar()[15]);
    }
    assert_eq!((core.dar()[15], core.sp()[4]), (0x6000, 0x5000));
    Ok(())
}
