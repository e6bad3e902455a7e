//! The same machine in plain Rust, to compare times with: the integer unit with its windows, traps and interrupts, RAM
//! of 256 pages, the devices, and the events of a timeline. It decodes each word each time that it is carried out, as
//! the proved program does. It proves nothing.
//!
//! `interpreter WINDOWS IMAGE STEP..` answers each STEP as the command `regs STEP` is answered, and tells on standard
//! error the time of a step. WINDOWS is 2, 4, 8, 16 or 32. IMAGE is a file as `bench/image.py` writes it, of lines
//! `at ADDRESS BYTES`, `poke STEP ADDRESS BYTES`, `input STEP BYTES` and `irq STEP LEVEL`.
use std::collections::{BTreeMap, VecDeque};
use std::process::ExitCode;
use std::time::Instant;

const RAM_SIZE: usize = 256 * 4096;

/// A trap by its type, tt.
type Trap = u8;

const INSTRUCTION_ACCESS: Trap = 0x01;
const ILLEGAL: Trap = 0x02;
const PRIVILEGED: Trap = 0x03;
const FP_DISABLED: Trap = 0x04;
const WINDOW_OVERFLOW: Trap = 0x05;
const WINDOW_UNDERFLOW: Trap = 0x06;
const NOT_ALIGNED: Trap = 0x07;
const DATA_ACCESS: Trap = 0x09;
const TAG_OVERFLOW: Trap = 0x0a;
const CP_DISABLED: Trap = 0x24;
const DIVISION_BY_ZERO: Trap = 0x2a;

// The condition codes are four bits.
const N: u32 = 8;
const Z: u32 = 4;
const V: u32 = 2;
const C: u32 = 1;

/// Whether a condition holds, at the place 16 * condition + condition codes.
static HOLDS: [bool; 256] = conditions();

const fn conditions() -> [bool; 256] {
    let mut table = [false; 256];
    let mut at = 0;
    while at < 256 {
        let codes = at as u32 & 15;
        let (n, z, v, c) = (codes & N != 0, codes & Z != 0, codes & V != 0, codes & C != 0);
        let positive = match at >> 4 & 7 {
            0 => false,
            1 => z,
            2 => z || n != v,
            3 => n != v,
            4 => c || z,
            5 => c,
            6 => n,
            _ => v,
        };
        table[at] = positive != (at >> 7 == 1);
        at += 1;
    }
    table
}

/// What comes from outside, by step.
#[derive(Default)]
struct Timeline {
    marks: Vec<bool>,
    pokes: BTreeMap<u32, Vec<(usize, Vec<u8>)>>,
    inputs: BTreeMap<u32, Vec<u8>>,
    requests: BTreeMap<u32, Vec<u32>>,
}

impl Timeline {
    fn mark(&mut self, step: u32) {
        if self.marks.len() <= step as usize {
            self.marks.resize(step as usize + 1, false);
        }
        self.marks[step as usize] = true;
    }

    #[inline(always)]
    fn has_events(&self, step: u32) -> bool {
        matches!(self.marks.get(step as usize), Some(true))
    }
}

struct Machine<const NW: usize> {
    globals: [u32; 8],
    ring: [[u32; 16]; NW],
    cwp: u32,
    codes: u32,
    pil: u32,
    s: bool,
    ps: bool,
    et: bool,
    wim: u32,
    tbr: u32,
    y: u32,
    pc: u32,
    npc: u32,
    annul: bool,
    running: bool,
    ram: Box<[u8; RAM_SIZE]>,
    fault_status: u32,
    fault_address: u32,
    count: u32,
    reload: u32,
    pending: u32,
    waiting: VecDeque<u8>,
    output: Vec<u8>,
}

fn field(word: u32, low: u32, width: u32) -> u32 {
    word >> low & ((1 << width) - 1)
}

fn sign_extend(value: u32, width: u32) -> u32 {
    ((value << (32 - width)) as i32 >> (32 - width)) as u32
}

fn codes_of(value: u32) -> u32 {
    (value >> 31) * N + u32::from(value == 0) * Z
}

/// A sum with its condition codes.
#[inline(always)]
fn sum(x: u32, y: u32, carry: u32) -> (u32, u32) {
    let wide = u64::from(x) + u64::from(y) + u64::from(carry);
    let value = wide as u32;
    let overflow = (!(x ^ y) & (x ^ value)) >> 31;
    (value, codes_of(value) + overflow * V + (wide >> 32) as u32)
}

/// A difference with its condition codes.
#[inline(always)]
fn difference(x: u32, y: u32, borrow: u32) -> (u32, u32) {
    let wide = u64::from(x).wrapping_sub(u64::from(y)).wrapping_sub(u64::from(borrow));
    let value = wide as u32;
    let overflow = ((x ^ y) & (x ^ value)) >> 31;
    (value, codes_of(value) + overflow * V + (wide >> 63) as u32)
}

fn tagged(x: u32, y: u32, (value, codes): (u32, u32)) -> (u32, u32) {
    if (x | y) & 3 == 0 { (value, codes) } else { (value, codes | V) }
}

fn unsigned_quotient(high: u32, low: u32, divisor: u32) -> Result<(u32, u32), Trap> {
    let dividend = u64::from(high) << 32 | u64::from(low);
    let quotient = dividend.checked_div(u64::from(divisor)).ok_or(DIVISION_BY_ZERO)?;
    let value = u32::try_from(quotient).unwrap_or(u32::MAX);
    Ok((value, codes_of(value) + u32::from(quotient != u64::from(value)) * V))
}

fn signed_quotient(high: u32, low: u32, divisor: u32) -> Result<(u32, u32), Trap> {
    if divisor == 0 {
        return Err(DIVISION_BY_ZERO);
    }
    let dividend = (u64::from(high) << 32 | u64::from(low)) as i64;
    let quotient = dividend.checked_div(i64::from(divisor as i32)).unwrap_or(i64::MAX);
    let nearest = quotient.clamp(i64::from(i32::MIN), i64::from(i32::MAX));
    let value = nearest as u32;
    Ok((value, codes_of(value) + u32::from(quotient != nearest) * V))
}

/// Registers.
impl<const NW: usize> Machine<NW> {
    #[inline(always)]
    fn get(&self, r: u32) -> u32 {
        if r < 8 {
            self.globals[r as usize]
        } else {
            let at = 16 * self.cwp + r - 8;
            self.ring[(at / 16) as usize % NW][at as usize % 16]
        }
    }

    #[inline(always)]
    fn set(&mut self, r: u32, value: u32) {
        if r >= 8 {
            let at = 16 * self.cwp + r - 8;
            self.ring[(at / 16) as usize % NW][at as usize % 16] = value;
        } else if r != 0 {
            self.globals[r as usize] = value;
        }
    }

    #[inline(always)]
    fn operand(&self, word: u32) -> u32 {
        if field(word, 13, 1) == 1 { sign_extend(word, 13) } else { self.get(field(word, 0, 5)) }
    }

    fn below(&self) -> u32 {
        self.cwp.wrapping_sub(1) % NW as u32
    }

    fn above(&self) -> u32 {
        (self.cwp + 1) % NW as u32
    }

    fn psr(&self) -> u32 {
        let modes = u32::from(self.s) << 7 | u32::from(self.ps) << 6 | u32::from(self.et) << 5;
        self.codes << 20 | self.pil << 8 | modes | self.cwp
    }

    fn set_psr(&mut self, word: u32) {
        self.codes = field(word, 20, 4);
        self.pil = field(word, 8, 4);
        self.s = field(word, 7, 1) == 1;
        self.ps = field(word, 6, 1) == 1;
        self.et = field(word, 5, 1) == 1;
        self.cwp = field(word, 0, 5);
    }

    fn set_trap_type(&mut self, trap: Trap) {
        self.tbr = self.tbr & !0xfff | u32::from(trap) << 4;
    }
}

/// Memory.
impl<const NW: usize> Machine<NW> {
    /// Records that nothing serves an address.
    #[cold]
    fn fail(&mut self, access_type: u32, at: u32) {
        let again = u32::from(field(self.fault_status, 2, 3) != 0);
        self.fault_status = (access_type + u32::from(self.s)) << 5 | 5 << 2 | 2 | again;
        self.fault_address = at;
    }

    #[inline(always)]
    fn bytes<const SIZE: usize>(&self, at: u32) -> Option<[u8; SIZE]> {
        self.ram.get(at as usize..at as usize + SIZE)?.try_into().ok()
    }

    #[inline(always)]
    fn put<const SIZE: usize>(&mut self, at: u32, bytes: [u8; SIZE]) -> Result<(), Trap> {
        match self.ram.get_mut(at as usize..at as usize + SIZE) {
            Some(place) => place.copy_from_slice(&bytes),
            None => return self.refuse(4, at),
        }
        Ok(())
    }

    #[cold]
    fn refuse<T>(&mut self, access_type: u32, at: u32) -> Result<T, Trap> {
        self.fail(access_type, at);
        Err(DATA_ACCESS)
    }

    #[inline(always)]
    fn load<const SIZE: usize>(&mut self, at: u32) -> Result<[u8; SIZE], Trap> {
        if at as usize % SIZE != 0 {
            return Err(NOT_ALIGNED);
        }
        match self.bytes(at) {
            Some(bytes) => Ok(bytes),
            None => self.refuse(0, at),
        }
    }

    #[inline(always)]
    fn store<const SIZE: usize>(&mut self, at: u32, bytes: [u8; SIZE]) -> Result<(), Trap> {
        if at as usize % SIZE != 0 {
            return Err(NOT_ALIGNED);
        }
        self.put(at, bytes)
    }

    #[inline(always)]
    fn load_word(&mut self, at: u32) -> Result<u32, Trap> {
        if at % 4 != 0 {
            return Err(NOT_ALIGNED);
        }
        match self.bytes(at) {
            Some(bytes) => Ok(u32::from_be_bytes(bytes)),
            None => self.load_device(at),
        }
    }

    #[inline(always)]
    fn store_word(&mut self, at: u32, value: u32) -> Result<(), Trap> {
        if at % 4 != 0 {
            return Err(NOT_ALIGNED);
        }
        match self.ram.get_mut(at as usize..at as usize + 4) {
            Some(place) => place.copy_from_slice(&value.to_be_bytes()),
            None => return self.store_device(at, value),
        }
        Ok(())
    }

    /// Stores in the place of what is loaded, which RAM alone serves.
    fn exchange<const SIZE: usize>(&mut self, at: u32, bytes: [u8; SIZE]) -> Result<[u8; SIZE], Trap> {
        if at as usize % SIZE != 0 {
            return Err(NOT_ALIGNED);
        }
        match self.bytes(at) {
            Some(old) => {
                self.put(at, bytes)?;
                Ok(old)
            }
            None => self.refuse(4, at),
        }
    }

    #[inline(never)]
    fn load_device(&mut self, at: u32) -> Result<u32, Trap> {
        match at {
            0x8000_0000 => Ok(u32::from(self.waiting.pop_front().unwrap_or(0))),
            0x8000_0004 => Ok(self.waiting.len() as u32),
            0x8000_0008 => Ok(0),
            0x8000_0010 => Ok(self.count),
            0x8000_0014 => Ok(self.reload),
            0x8000_001c => Ok(self.pending),
            _ => self.refuse(0, at),
        }
    }

    #[inline(never)]
    fn store_device(&mut self, at: u32, value: u32) -> Result<(), Trap> {
        match at {
            0x8000_0000 | 0x8000_0004 => {}
            0x8000_0008 => self.output.push(value as u8),
            0x8000_0010 => self.count = value,
            0x8000_0014 => self.reload = value,
            0x8000_001c => self.pending &= !value,
            _ => return self.refuse(4, at),
        }
        Ok(())
    }
}

/// Instructions. Each leaves PC and nPC as they are where it raises a trap.
impl<const NW: usize> Machine<NW> {
    #[inline(always)]
    fn advance(&mut self) {
        self.pc = self.npc;
        self.npc = self.npc.wrapping_add(4);
    }

    #[inline(always)]
    fn transfer(&mut self, target: u32) {
        self.pc = self.npc;
        self.npc = target;
    }

    #[inline(always)]
    fn finish(&mut self, rd: u32, value: u32) -> Result<(), Trap> {
        self.set(rd, value);
        self.advance();
        Ok(())
    }

    #[inline(always)]
    fn finish_with_codes(&mut self, rd: u32, (value, codes): (u32, u32)) -> Result<(), Trap> {
        self.codes = codes;
        self.finish(rd, value)
    }

    #[inline(always)]
    fn execute(&mut self, word: u32) -> Result<(), Trap> {
        match word >> 30 {
            0 => self.format_2(word),
            1 => {
                let pc = self.pc;
                self.set(15, pc);
                self.transfer(pc.wrapping_add(word << 2));
                Ok(())
            }
            2 => self.arithmetic(word),
            _ => self.memory(word),
        }
    }

    #[inline(always)]
    fn format_2(&mut self, word: u32) -> Result<(), Trap> {
        match field(word, 22, 3) {
            2 => {
                self.branch(word);
                Ok(())
            }
            4 => self.finish(field(word, 25, 5), word << 10),
            6 => Err(FP_DISABLED),
            7 => Err(CP_DISABLED),
            _ => Err(ILLEGAL),
        }
    }

    #[inline(always)]
    fn branch(&mut self, word: u32) {
        let condition = field(word, 25, 4);
        let annuls = field(word, 29, 1) == 1;
        if HOLDS[(16 * condition + self.codes % 16) as usize] {
            self.annul = annuls && condition == 8;
            self.transfer(self.pc.wrapping_add(sign_extend(word, 22) << 2));
        } else {
            self.annul = annuls;
            self.advance();
        }
    }

    #[inline(always)]
    fn arithmetic(&mut self, word: u32) -> Result<(), Trap> {
        let rd = field(word, 25, 5);
        let x = self.get(field(word, 14, 5));
        let y = self.operand(word);
        match field(word, 19, 6) {
            0x00 => self.finish(rd, x.wrapping_add(y)),
            0x01 => self.finish(rd, x & y),
            0x02 => self.finish(rd, x | y),
            0x03 => self.finish(rd, x ^ y),
            0x04 => self.finish(rd, x.wrapping_sub(y)),
            0x05 => self.finish(rd, x & !y),
            0x06 => self.finish(rd, x | !y),
            0x07 => self.finish(rd, x ^ !y),
            0x08 => self.finish(rd, x.wrapping_add(y).wrapping_add(self.codes & C)),
            0x0a => {
                let product = self.product(u64::from(x) * u64::from(y));
                self.finish(rd, product)
            }
            0x0b => {
                let product = self.product((i64::from(x as i32) * i64::from(y as i32)) as u64);
                self.finish(rd, product)
            }
            0x0c => self.finish(rd, x.wrapping_sub(y).wrapping_sub(self.codes & C)),
            0x0e => self.finish(rd, unsigned_quotient(self.y, x, y)?.0),
            0x0f => self.finish(rd, signed_quotient(self.y, x, y)?.0),
            0x10 => self.finish_with_codes(rd, sum(x, y, 0)),
            0x11 => self.finish_with_codes(rd, (x & y, codes_of(x & y))),
            0x12 => self.finish_with_codes(rd, (x | y, codes_of(x | y))),
            0x13 => self.finish_with_codes(rd, (x ^ y, codes_of(x ^ y))),
            0x14 => self.finish_with_codes(rd, difference(x, y, 0)),
            0x15 => self.finish_with_codes(rd, (x & !y, codes_of(x & !y))),
            0x16 => self.finish_with_codes(rd, (x | !y, codes_of(x | !y))),
            0x17 => self.finish_with_codes(rd, (x ^ !y, codes_of(x ^ !y))),
            0x18 => self.finish_with_codes(rd, sum(x, y, self.codes & C)),
            0x1a => {
                let product = self.product(u64::from(x) * u64::from(y));
                self.finish_with_codes(rd, (product, codes_of(product)))
            }
            0x1b => {
                let product = self.product((i64::from(x as i32) * i64::from(y as i32)) as u64);
                self.finish_with_codes(rd, (product, codes_of(product)))
            }
            0x1c => self.finish_with_codes(rd, difference(x, y, self.codes & C)),
            0x1e => self.finish_with_codes(rd, unsigned_quotient(self.y, x, y)?),
            0x1f => self.finish_with_codes(rd, signed_quotient(self.y, x, y)?),
            0x20 => self.finish_with_codes(rd, tagged(x, y, sum(x, y, 0))),
            0x21 => self.finish_with_codes(rd, tagged(x, y, difference(x, y, 0))),
            0x22 => self.finish_tagged(rd, tagged(x, y, sum(x, y, 0))),
            0x23 => self.finish_tagged(rd, tagged(x, y, difference(x, y, 0))),
            0x24 => self.multiply_step(rd, x, y),
            0x25 => self.finish(rd, x << (y & 31)),
            0x26 => self.finish(rd, x >> (y & 31)),
            0x27 => self.finish(rd, (x as i32 >> (y & 31)) as u32),
            0x38 => self.jump(rd, x.wrapping_add(y)),
            0x3a => self.trap_instruction(word, x.wrapping_add(y)),
            0x3b => {
                self.advance();
                Ok(())
            }
            0x3c => self.save(rd, x.wrapping_add(y)),
            0x3d => self.restore(rd, x.wrapping_add(y)),
            op3 => self.seldom(op3, word, x, y),
        }
    }

    /// Instructions that programs seldom have: state registers, RETT, and those of units that are not there.
    #[inline(never)]
    fn seldom(&mut self, op3: u32, word: u32, x: u32, y: u32) -> Result<(), Trap> {
        let rd = field(word, 25, 5);
        match op3 {
            0x28 => match (field(word, 14, 5), rd) {
                (0, _) => self.finish(rd, self.y),
                (15, 0) => {
                    self.advance();
                    Ok(())
                }
                _ => Err(ILLEGAL),
            },
            0x29..=0x2b | 0x31..=0x33 if !self.s => Err(PRIVILEGED),
            0x29 => self.finish(rd, self.psr()),
            0x2a => self.finish(rd, self.wim),
            0x2b => self.finish(rd, self.tbr),
            0x30..=0x33 => self.write_state(op3, rd, x ^ y),
            0x34 | 0x35 => Err(FP_DISABLED),
            0x36 | 0x37 => Err(CP_DISABLED),
            0x39 => {
                self.return_from_trap(x.wrapping_add(y))
            }
            _ => Err(ILLEGAL),
        }
    }

    fn write_state(&mut self, op3: u32, rd: u32, word: u32) -> Result<(), Trap> {
        match op3 {
            0x30 if rd == 0 => self.y = word,
            0x30 => return Err(ILLEGAL),
            0x31 if word % 32 < NW as u32 => self.set_psr(word),
            0x31 => return Err(ILLEGAL),
            0x32 => self.wim = word & (u32::MAX >> (32 - NW)),
            _ => self.tbr = word & !0xfff | self.tbr & 0xfff,
        }
        self.advance();
        Ok(())
    }

    fn product(&mut self, product: u64) -> u32 {
        self.y = (product >> 32) as u32;
        product as u32
    }

    fn finish_tagged(&mut self, rd: u32, answer: (u32, u32)) -> Result<(), Trap> {
        if answer.1 & V != 0 { Err(TAG_OVERFLOW) } else { self.finish_with_codes(rd, answer) }
    }

    fn multiply_step(&mut self, rd: u32, x: u32, y: u32) -> Result<(), Trap> {
        let sign = (self.codes >> 3 ^ self.codes >> 1) & 1;
        let second = if self.y & 1 == 0 { 0 } else { y };
        self.y = x << 31 | self.y >> 1;
        self.finish_with_codes(rd, sum(sign << 31 | x >> 1, second, 0))
    }

    #[inline(always)]
    fn jump(&mut self, rd: u32, target: u32) -> Result<(), Trap> {
        if target % 4 != 0 {
            return Err(NOT_ALIGNED);
        }
        self.set(rd, self.pc);
        self.transfer(target);
        Ok(())
    }

    fn trap_instruction(&mut self, word: u32, number: u32) -> Result<(), Trap> {
        if HOLDS[(16 * field(word, 25, 4) + self.codes % 16) as usize] {
            return Err(0x80 | (number & 0x7f) as u8);
        }
        self.advance();
        Ok(())
    }

    #[inline(always)]
    fn save(&mut self, rd: u32, sum: u32) -> Result<(), Trap> {
        let window = self.below();
        if self.wim >> window & 1 == 1 {
            return Err(WINDOW_OVERFLOW);
        }
        self.cwp = window;
        self.finish(rd, sum)
    }

    #[inline(always)]
    fn restore(&mut self, rd: u32, sum: u32) -> Result<(), Trap> {
        let window = self.above();
        if self.wim >> window & 1 == 1 {
            return Err(WINDOW_UNDERFLOW);
        }
        self.cwp = window;
        self.finish(rd, sum)
    }

    fn return_from_trap(&mut self, target: u32) -> Result<(), Trap> {
        if self.et {
            return Err(if self.s { ILLEGAL } else { PRIVILEGED });
        }
        let window = self.above();
        let fault = match (self.s, self.wim >> window & 1, target % 4) {
            (false, _, _) => PRIVILEGED,
            (true, 1, _) => WINDOW_UNDERFLOW,
            (true, _, 0) => {
                self.et = true;
                self.s = self.ps;
                self.cwp = window;
                self.transfer(target);
                return Ok(());
            }
            _ => NOT_ALIGNED,
        };
        self.set_trap_type(fault);
        self.running = false;
        Ok(())
    }

    #[inline(always)]
    fn memory(&mut self, word: u32) -> Result<(), Trap> {
        let rd = field(word, 25, 5);
        let at = self.get(field(word, 14, 5)).wrapping_add(self.operand(word));
        match field(word, 19, 6) {
            0x00 => {
                let value = self.load_word(at)?;
                self.finish(rd, value)
            }
            0x01 => {
                let [byte] = self.load(at)?;
                self.finish(rd, u32::from(byte))
            }
            0x02 => {
                let half = u16::from_be_bytes(self.load(at)?);
                self.finish(rd, u32::from(half))
            }
            0x03 => self.load_double(rd, at),
            0x04 => {
                self.store_word(at, self.get(rd))?;
                self.advance();
                Ok(())
            }
            0x05 => {
                self.store(at, [self.get(rd) as u8])?;
                self.advance();
                Ok(())
            }
            0x06 => {
                self.store(at, (self.get(rd) as u16).to_be_bytes())?;
                self.advance();
                Ok(())
            }
            0x07 => self.store_double(rd, at),
            0x09 => {
                let [byte] = self.load(at)?;
                self.finish(rd, byte as i8 as u32)
            }
            0x0a => {
                let half = i16::from_be_bytes(self.load(at)?);
                self.finish(rd, half as u32)
            }
            0x0d => {
                let [byte] = self.exchange(at, [0xff])?;
                self.finish(rd, u32::from(byte))
            }
            0x0f => {
                let old = self.exchange(at, self.get(rd).to_be_bytes())?;
                self.finish(rd, u32::from_be_bytes(old))
            }
            op3 => Err(self.other_unit(op3, word, at)),
        }
    }

    #[inline(always)]
    fn load_double(&mut self, rd: u32, at: u32) -> Result<(), Trap> {
        if rd % 2 == 1 {
            return Err(ILLEGAL);
        }
        let value = u64::from_be_bytes(self.load(at)?);
        self.set(rd, (value >> 32) as u32);
        self.finish(rd + 1, value as u32)
    }

    #[inline(always)]
    fn store_double(&mut self, rd: u32, at: u32) -> Result<(), Trap> {
        if rd % 2 == 1 {
            return Err(ILLEGAL);
        }
        let value = u64::from(self.get(rd)) << 32 | u64::from(self.get(rd + 1));
        self.store(at, value.to_be_bytes())?;
        self.advance();
        Ok(())
    }

    /// The trap of an alternate space form, or of a unit that is not there.
    #[inline(never)]
    fn other_unit(&self, op3: u32, word: u32, at: u32) -> Trap {
        match op3 {
            0x10..=0x17 | 0x19 | 0x1a | 0x1d | 0x1f => self.alternate(op3, word, at),
            0x26 | 0x36 if !self.s => PRIVILEGED,
            0x20 | 0x21 | 0x23..=0x27 => FP_DISABLED,
            0x30 | 0x31 | 0x33..=0x37 => CP_DISABLED,
            _ => ILLEGAL,
        }
    }

    fn alternate(&self, op3: u32, word: u32, at: u32) -> Trap {
        let size = match op3 {
            0x13 | 0x17 => 8,
            0x10 | 0x14 | 0x1f => 4,
            0x12 | 0x16 | 0x1a => 2,
            _ => 1,
        };
        if !self.s {
            PRIVILEGED
        } else if field(word, 13, 1) == 1 || size == 8 && field(word, 25, 1) == 1 {
            ILLEGAL
        } else if at % size != 0 {
            NOT_ALIGNED
        } else {
            DATA_ACCESS
        }
    }
}

/// Traps, interrupts, events, and the step.
impl<const NW: usize> Machine<NW> {
    #[inline(never)]
    fn enter(&mut self, trap: Trap, pc: u32, npc: u32) {
        self.et = false;
        self.ps = self.s;
        self.s = true;
        self.cwp = self.below();
        self.set(17, pc);
        self.set(18, npc);
        self.set_trap_type(trap);
        self.pc = self.tbr;
        self.npc = self.tbr.wrapping_add(4);
        self.annul = false;
    }

    #[inline(never)]
    fn take(&mut self, trap: Trap) {
        if self.et { self.enter(trap, self.pc, self.npc) } else { self.running = false }
    }

    /// Takes an interrupt, if one is to be taken.
    #[inline(never)]
    fn interrupts(&mut self) -> bool {
        let level = 31 - self.pending.leading_zeros();
        if level <= self.pil && level != 15 {
            return false;
        }
        let trap = 0x10 + level as u8;
        if self.annul {
            self.enter(trap, self.npc, self.npc.wrapping_add(4));
        } else {
            self.enter(trap, self.pc, self.npc);
        }
        true
    }

    #[cold]
    fn happen(&mut self, n: u32, timeline: &Timeline) {
        for (at, bytes) in timeline.pokes.get(&n).into_iter().flatten() {
            self.ram[*at..*at + bytes.len()].copy_from_slice(bytes);
        }
        self.waiting.extend(timeline.inputs.get(&n).into_iter().flatten());
        for level in timeline.requests.get(&n).into_iter().flatten() {
            self.pending |= 1 << level;
        }
    }

    #[inline(always)]
    fn step(&mut self, n: u32, timeline: &Timeline) {
        if timeline.has_events(n) {
            self.happen(n, timeline);
        }
        if !self.running {
            return;
        }
        if self.count > 0 {
            self.count -= 1;
            if self.count == 0 {
                self.pending |= 1 << 10;
                self.count = self.reload;
            }
        }
        if self.et && self.pending != 0 && self.interrupts() {
            return;
        }
        if self.annul {
            self.annul = false;
            self.advance();
            return;
        }
        let done = match self.bytes(self.pc) {
            Some(bytes) => self.execute(u32::from_be_bytes(bytes)),
            None => {
                self.fail(2, self.pc);
                Err(INSTRUCTION_ACCESS)
            }
        };
        if let Err(trap) = done {
            self.take(trap);
        }
    }

    fn reset(image: &[(usize, Vec<u8>)]) -> Self {
        let mut ram: Box<[u8; RAM_SIZE]> = vec![0; RAM_SIZE].try_into().unwrap();
        for (at, bytes) in image {
            ram[*at..*at + bytes.len()].copy_from_slice(bytes);
        }
        Machine {
            globals: [0; 8],
            ring: [[0; 16]; NW],
            cwp: 0,
            codes: 0,
            pil: 0,
            s: true,
            ps: false,
            et: false,
            wim: 0,
            tbr: 0,
            y: 0,
            pc: 0,
            npc: 4,
            annul: false,
            running: true,
            ram,
            fault_status: 0,
            fault_address: 0,
            count: 0,
            reload: 0,
            pending: 0,
            waiting: VecDeque::new(),
            output: Vec::new(),
        }
    }

    /// The answer of `regs`.
    fn show(&self, n: u32) {
        let words = |first: u32| (first..first + 8).map(|r| format!(" {:08X}", self.get(r))).collect::<String>();
        println!("step {n} {}", if self.running { "run" } else { "error" });
        println!("pc {:08X} npc {:08X} annul {}", self.pc, self.npc, u32::from(self.annul));
        println!("psr {:08X} wim {:08X} tbr {:08X} y {:08X}", self.psr(), self.wim, self.tbr, self.y);
        println!("g{}\no{}\nl{}\ni{}", words(0), words(8), words(16), words(24));
        println!("mmu {:08X} {:08X} {:08X} {:08X} {:08X}", 0, 0, 0, self.fault_status, self.fault_address);
        println!("dev {:08X} {:08X} {:08X} {:08X}", self.count, self.reload, self.pending, self.waiting.len());
        println!("ok");
    }
}

struct Program {
    image: Vec<(usize, Vec<u8>)>,
    timeline: Timeline,
}

fn bytes_of(text: &str) -> Option<Vec<u8>> {
    (0..text.len()).step_by(2).map(|at| u8::from_str_radix(text.get(at..at + 2)?, 16).ok()).collect()
}

fn address(text: &str) -> Option<usize> {
    usize::from_str_radix(text, 16).ok()
}

fn read(program: &mut Program, line: &str) -> Option<()> {
    let words: Vec<&str> = line.split_whitespace().collect();
    if let ["at", at, bytes] = words[..] {
        program.image.push((address(at)?, bytes_of(bytes)?));
        return Some(());
    }
    let n: u32 = words.get(1)?.parse().ok()?;
    let timeline = &mut program.timeline;
    match words[..] {
        ["poke", _, at, bytes] => timeline.pokes.entry(n).or_default().push((address(at)?, bytes_of(bytes)?)),
        ["input", _, bytes] => drop(timeline.inputs.insert(n, bytes_of(bytes)?)),
        ["irq", _, level] => timeline.requests.entry(n).or_default().push(level.parse().ok()?),
        _ => return None,
    }
    timeline.mark(n);
    Some(())
}

fn run<const NW: usize>(program: &Program, steps: u32) {
    let mut machine = Machine::<NW>::reset(&program.image);
    let start = Instant::now();
    for n in 0..steps {
        machine.step(n, &program.timeline);
    }
    let time = start.elapsed().as_nanos() as f64;
    machine.show(steps);
    eprintln!("{:.2} ns a step", time / f64::from(steps.max(1)));
}

fn serve(words: &[String]) -> Option<()> {
    let (windows, file, steps) = match words {
        [windows, file, steps @ ..] => (windows.parse().ok()?, file, steps),
        _ => return None,
    };
    let mut program = Program { image: Vec::new(), timeline: Timeline::default() };
    for line in std::fs::read_to_string(file).ok()?.lines() {
        read(&mut program, line)?;
    }
    for step in steps {
        let steps = step.parse().ok()?;
        match windows {
            2 => run::<2>(&program, steps),
            4 => run::<4>(&program, steps),
            8 => run::<8>(&program, steps),
            16 => run::<16>(&program, steps),
            32 => run::<32>(&program, steps),
            _ => return None,
        }
    }
    Some(())
}

fn main() -> ExitCode {
    let words: Vec<String> = std::env::args().skip(1).collect();
    match serve(&words) {
        Some(()) => ExitCode::SUCCESS,
        None => {
            eprintln!("interpreter WINDOWS IMAGE STEP..");
            ExitCode::from(2)
        }
    }
}
