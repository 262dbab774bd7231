//! Three soak timers over a bus of one's own, on a 68010.
//!
//! The devices are the host's: each timer counts down and then asks for an interrupt of its level. Between two
//! instructions the host says the highest level that is asked for (`set_irq`), and takes the interrupt if the mask lets
//! it. The timer's vector is what it answers to the acknowledge cycle.

use m68k_host::{Answer, Call, Core, Event, Kind, Refusal};

/// A device that asks for an interrupt again and again.
struct Timer {
    name: &'static str,
    level: u8,
    vector: u8,
    period: u32,
    left: u32,
    asks: bool,
}

impl Timer {
    fn new(name: &'static str, level: u8, vector: u8, period: u32) -> Timer {
        Timer { name, level, vector, period, left: period, asks: false }
    }

    fn tick(&mut self) {
        self.left -= 1;
        if self.left == 0 {
            (self.left, self.asks) = (self.period, true);
        }
    }
}

/// The bus: memory and the timers.
struct Board {
    memory: Vec<u8>,
    timers: [Timer; 3],
}

impl Board {
    /// The highest level that is asked for, 0 for none.
    fn level(&self) -> u8 {
        self.timers.iter().filter(|timer| timer.asks).map(|timer| timer.level).max().unwrap_or(0)
    }

    /// The timer whose turn it is at a level, taken off the list of those that ask.
    fn acknowledge(&mut self, level: u32) -> Option<&'static str> {
        let timer = self.timers.iter_mut().find(|t| t.asks && u32::from(t.level) == level)?;
        timer.asks = false;
        Some(timer.name)
    }
}

fn main() -> Result<(), Refusal> {
    let timers = [
        Timer::new("willow", 2, 64, 3),
        Timer::new("rattan", 4, 65, 4),
        Timer::new("rush", 6, 66, 6),
    ];
    let mut board = Board { memory: vec![0; 65_536], timers };
    let mut core = Core::fresh(Kind::M68010);
    core.dar_mut()[15] = 0x8000;
    core.set_pc(0x1000);
    core.set_sr(0x2000);
    for timer in &board.timers {
        // Each handler in a place of its own, and what the device answers.
        let place = usize::from(timer.vector) * 4;
        let handler = 0x3000 + u32::from(timer.level) * 0x100;
        board.memory[place..place + 4].copy_from_slice(&handler.to_be_bytes());
        core.responses_mut()[usize::from(timer.level)] = timer.vector.into();
    }
    let (mut log, mut open, mut most) = ([0; 192], 0, 0);
    for step in 1..=24 {
        // The guest's instruction: here it only goes on, and every fifth one ends a handler.
        core.set_pc(core.pc().wrapping_add(2));
        if step % 5 == 0 && open > 0 {
            let row = core.return_from(&board.memory)?;
            open -= 1;
            println!("{step:2}: back to {:08X}, status {:04X}", row.address, row.status);
        }
        board.timers.iter_mut().for_each(Timer::tick);
        core.call(Call::SetIrq(board.level()), &mut board.memory, &mut log)?;
        let answer = core.call(Call::CheckAndServiceInterrupts, &mut board.memory, &mut log)?;
        if let Answer::Flag { set: true, .. } = answer {
            let acknowledged = answer.events(&log).find_map(|event| match event {
                Event::Acknowledge { level, .. } => board.acknowledge(level),
                _ => None,
            });
            let name = acknowledged.expect("a level that a timer asked for");
            open += 1;
            most = most.max(open);
            println!("{step:2}: {name} breaks in, on at {:08X}, {open} open", core.pc());
        }
    }
    // The stack tells all: as many returns as are open lead back to the program.
    while open > 0 {
        core.return_from(&board.memory)?;
        open -= 1;
    }
    assert_eq!((core.dar()[15], core.get_sr()), (0x8000, 0x2000));
    assert!(most >= 2, "no timer broke into the handler of another");
    println!("{most} open at most; back at {:08X} with the program's own stack", core.pc());
    Ok(())
}
