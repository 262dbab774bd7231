//! Return and walk, which the Rust does not have: written from the scope alone.

use crate::bus::Bus;
use crate::case::Row;
use crate::record::Record;

pub const NOT_SUPERVISOR: u8 = 11;
pub const NOT_SERVED: u8 = 12;
pub const BAD_FORMAT: u8 = 13;

/// Frame lengths by kind and format, 0 for not taken.
pub const LENGTHS: [[u8; 16]; 12] = [
    [8, 0, 12, 0, 0, 0, 0, 0, 0, 0, 0, 92, 0, 0, 0, 0],
    [0; 16],
    [8, 0, 0, 0, 0, 0, 0, 0, 58, 0, 0, 0, 0, 0, 0, 0],
    [8, 8, 12, 0, 0, 0, 0, 0, 0, 0, 0, 92, 0, 0, 0, 0],
    [8, 8, 12, 0, 0, 0, 0, 0, 0, 0, 0, 92, 0, 0, 0, 0],
    [8, 8, 12, 0, 0, 0, 0, 0, 0, 0, 0, 92, 0, 0, 0, 0],
    [8, 8, 12, 0, 0, 0, 0, 0, 0, 0, 0, 92, 0, 0, 0, 0],
    [8, 8, 12, 0, 0, 0, 0, 60, 0, 0, 0, 0, 0, 0, 0, 0],
    [8, 8, 12, 0, 0, 0, 0, 60, 0, 0, 0, 0, 0, 0, 0, 0],
    [8, 8, 12, 0, 0, 0, 0, 60, 0, 0, 0, 0, 0, 0, 0, 0],
    [8, 0, 0, 0, 0, 0, 0, 0, 58, 0, 0, 0, 0, 0, 0, 0],
    [8, 0, 12, 0, 16, 0, 0, 0, 0, 0, 0, 0, 0, 0, 0, 0],
];

/// Kinds whose word and long accesses must be even.
pub fn aligned(kind: u8) -> bool {
    matches!(kind, 1 | 2 | 10)
}

/// Address bits of the kind.
pub fn address_mask(kind: u8) -> u32 {
    if matches!(kind, 0..=2) { 0x00FF_FFFF } else { u32::MAX }
}

/// Status bits of the kind.
pub fn status_mask(kind: u8) -> u16 {
    match kind {
        0..=2 | 10 => 0xA71F,
        11 => 0xB71F,
        _ => 0xF71F,
    }
}

struct Frame {
    format: u32,
    length: u32,
    status: u16,
    address: u32,
    offset: u32,
}

/// Frame byte i lies at A7 + i, masked.
fn frame_byte(kind: u8, a7: u32, bus: &Bus, i: u32) -> Result<u32, u8> {
    let at = a7.wrapping_add(i) & address_mask(kind);
    bus.byte(at).map(u32::from).ok_or(NOT_SERVED)
}

/// The frame at A7: its head is checked first, then its format, then the rest.
fn frame(kind: u8, a7: u32, bus: &Bus, second: bool) -> Result<Frame, u8> {
    if aligned(kind) && a7 & 1 != 0 {
        return Err(NOT_SERVED);
    }
    let head = if kind == 1 { 6 } else { 8 };
    let mut b = [0; 8];
    for i in 0..head {
        b[i as usize] = frame_byte(kind, a7, bus, i)?;
    }
    let status = (b[0] << 8 | b[1]) as u16;
    let address = b[2] << 24 | b[3] << 16 | b[4] << 8 | b[5];
    if kind == 1 {
        return Ok(Frame { format: 0, length: 6, status, address, offset: 0 });
    }
    let word = b[6] << 8 | b[7];
    let format = word >> 12;
    let length = u32::from(LENGTHS[kind as usize][format as usize]);
    if length == 0 || second && format == 1 {
        return Err(BAD_FORMAT);
    }
    for i in head..length {
        frame_byte(kind, a7, bus, i)?;
    }
    Ok(Frame { format, length, status, address, offset: word & 0xFFF })
}

/// Saved pointer of the stack in use.
fn bank(kind: u8, r: &Record) -> usize {
    if r.s_flag == 0 {
        0
    } else if kind != 11 && r.m_flag != 0 {
        6
    } else {
        4
    }
}

/// Status under the kind's mask with M as stacked; the stack in use is put away and the new one taken.
pub fn put_status(kind: u8, r: &mut Record, status: u16) {
    let sr = u32::from(status & status_mask(kind));
    let set = |bit: u32, value: u32| if sr & bit != 0 { value } else { 0 };
    r.sp[bank(kind, r)] = r.dar[15];
    r.t1_flag = sr & 0x8000;
    r.t0_flag = sr & 0x4000;
    r.int_mask = sr & 0x0700;
    r.s_flag = set(0x2000, 4);
    r.m_flag = set(0x1000, 2);
    r.x_flag = set(0x10, 0x100);
    r.n_flag = set(0x08, 0x80);
    r.not_z_flag = u32::from(sr & 0x04 == 0);
    r.v_flag = set(0x02, 0x80);
    r.c_flag = set(0x01, 0x100);
    r.dar[15] = r.sp[bank(kind, r)];
}

/// Takes one frame off: A7 up, address, status.
fn take(kind: u8, r: &mut Record, bus: &Bus, second: bool) -> Result<Frame, u8> {
    let f = frame(kind, r.dar[15], bus, second)?;
    r.dar[15] = r.dar[15].wrapping_add(f.length);
    r.pc = f.address;
    put_status(kind, r, f.status);
    Ok(f)
}

/// One return. On a refusal the record is as it was.
pub fn back(kind: u8, r: &mut Record, bus: &Bus) -> Result<Row, u8> {
    if r.s_flag == 0 {
        return Err(NOT_SUPERVISOR);
    }
    let mut copy = r.clone();
    let first = take(kind, &mut copy, bus, false)?;
    let format = first.format;
    let last = if format == 1 { take(kind, &mut copy, bus, true)? } else { first };
    copy.prefetch_count = 0;
    *r = copy;
    Ok([format, u32::from(last.status), last.address, last.offset])
}

/// n returns on a copy: the rows read, and 0 or the number that ended it.
pub fn walk(kind: u8, r: &Record, bus: &Bus, n: u32) -> (Vec<Row>, u8) {
    let mut copy = r.clone();
    let mut rows = vec![];
    for _ in 0..n {
        match back(kind, &mut copy, bus) {
            Ok(row) => rows.push(row),
            Err(number) => return (rows, number),
        }
    }
    (rows, 0)
}
