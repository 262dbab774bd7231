//! An emulator with four megabytes: entries over the part of memory that they need, and what is done where no part holds
//! all of it.

use m68k_host::large::LargeError;
use m68k_host::{Call, Core, Kind};

/// A machine with its memory from address 0 on.
struct Machine {
    core: Core,
    memory: Vec<u8>,
    log: [u32; 192],
}

impl Machine {
    fn lay_long(&mut self, address: usize, value: u32) {
        self.memory[address..address + 4].copy_from_slice(&value.to_be_bytes());
    }

    /// An entry: by the proved code, or, where what it needs lies too far apart, by whatever the emulator had before.
    fn enter(&mut self, call: Call) -> Result<bool, LargeError> {
        match self.core.call_large(call, &mut self.memory, &mut self.log) {
            Ok(answer) => {
                println!("{call:?}: {answer}, on at {:08X}", self.core.pc());
                Ok(true)
            }
            // Nothing has changed: the emulator's own code makes the entry.
            Err(LargeError::Apart(apart)) => {
                println!("{call:?}: left to the emulator: {apart}");
                Ok(false)
            }
            Err(error) => Err(error),
        }
    }
}

fn main() -> Result<(), LargeError> {
    let core = Core::fresh(Kind::M68010);
    let mut machine = Machine { core, memory: vec![0; 0x40_0000], log: [0; 192] };
    machine.lay_long(0xBC, 0x4000);
    machine.core.dar_mut()[15] = 0xF000;
    machine.core.set_pc(0x20_0000);

    // Vectors, stack and handler in the lowest 64 KiB, the program wherever it likes.
    assert!(machine.enter(Call::Trap(15))?);
    let row = machine.core.return_large(&machine.memory)?;
    assert_eq!((row.address, machine.core.dar()[15]), (0x20_0000, 0xF000));

    // The stack in high memory, the vectors at 0: no store holds both.
    machine.core.dar_mut()[15] = 0x3F_FFF0;
    let before = (machine.core.clone(), machine.memory.clone());
    assert!(!machine.enter(Call::Trap(15))?);
    assert!(before == (machine.core.clone(), machine.memory.clone()));

    // A guest that moves its vectors and the first words of its handlers beside the stack: as before.
    machine.core.set_vbr(0x3F_0000);
    machine.lay_long(0x3F_00BC, 0x3F_4000);
    assert!(machine.enter(Call::Trap(15))?);
    let mut rows = [0; 4];
    let walked = machine.core.walk_large(1, &machine.memory, &mut rows)?;
    assert_eq!((walked.count, rows), (1, [0, 0x2700, 0x20_0000, 0xBC]));
    Ok(())
}
