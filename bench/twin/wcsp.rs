//! Reading wcsp files: left to right, to the first fault or to the network that the file describes.

use crate::network::{ARITY, Network, ROOM, RULES, Rule, VALUES, VARIABLES};
use crate::tables::Table;
use crate::text::{Fault, Reader};

const NO_SUCH_VARIABLE: u8 = 1;
const VARIABLE_TWICE: u8 = 2;
const WRONG_LENGTH: u8 = 3;
const OUT_OF_RANGE: u8 = 4;
const TUPLE_TWICE: u8 = 5;
const FULL: u8 = 6;

pub fn read(text: &[u8]) -> Result<Network, Fault> {
    let mut reader = Reader::new(text);
    reader.skip_name()?;
    let variables = within(&mut reader, 1, OUT_OF_RANGE, VARIABLES, FULL)?;
    let largest = within(&mut reader, 1, OUT_OF_RANGE, VALUES, OUT_OF_RANGE)?;
    let constraints = within(&mut reader, 0, FULL, RULES, FULL)?;
    reader.number()?;
    let mut network = Network::new();
    let mut sizes = [0; VARIABLES];
    for size in &mut sizes[..variables] {
        *size = within(&mut reader, 1, OUT_OF_RANGE, largest, OUT_OF_RANGE)? as u32;
        network.add_variable(u64::MAX >> (VALUES as u32 - *size));
    }
    let mut used = 0;
    for _ in 0..constraints {
        let rule = read_table(&mut reader, &sizes[..variables], &mut used)?;
        network.add_rule(rule);
    }
    reader.end()?;
    Ok(network)
}

/// A number from low to high, and the refusals below and above.
fn within(
    reader: &mut Reader,
    low: usize,
    below: u8,
    high: usize,
    above: u8,
) -> Result<usize, Fault> {
    let number = reader.number()?;
    let value = number.value as usize;
    if value < low {
        return Err(number.fault(below));
    }
    if value > high {
        return Err(number.fault(above));
    }
    Ok(value)
}

/// One table, where those before it use some of the room.
fn read_table(reader: &mut Reader, sizes: &[u32], used: &mut usize) -> Result<Rule, Fault> {
    let arity = within(reader, 1, WRONG_LENGTH, ARITY, WRONG_LENGTH)?;
    let scope = read_scope(reader, sizes.len(), arity)?;
    let default = reader.number()?.value;
    let count = reader.number()?;
    let tuples = count.value as usize;
    if *used + arity + arity * tuples > ROOM {
        return Err(count.fault(FULL));
    }
    *used += arity + arity * tuples;
    let cells = read_tuples(reader, sizes, &scope, default, tuples)?;
    let table = Table { scope, cells };
    Ok(if default == 0 {
        Rule::Forbidden(table)
    } else {
        Rule::Allowed(table)
    })
}

/// So many of n variables, none twice.
fn read_scope(reader: &mut Reader, n: usize, arity: usize) -> Result<Vec<u8>, Fault> {
    let mut scope = Vec::with_capacity(arity);
    for _ in 0..arity {
        let number = reader.number()?;
        if number.value as usize >= n {
            return Err(number.fault(NO_SUCH_VARIABLE));
        }
        let x = number.value as u8;
        if scope.contains(&x) {
            return Err(number.fault(VARIABLE_TWICE));
        }
        scope.push(x);
    }
    Ok(scope)
}

/// The tuples of a table, one after the other.
fn read_tuples(
    reader: &mut Reader,
    sizes: &[u32],
    scope: &[u8],
    default: u32,
    count: usize,
) -> Result<Vec<u8>, Fault> {
    let mut cells = Vec::with_capacity(count * scope.len());
    let mut seen = Seen::new(count);
    for _ in 0..count {
        let at = reader.next_start();
        let mut packed = 0;
        for &x in scope {
            let number = reader.number()?;
            if number.value >= sizes[x as usize] {
                return Err(number.fault(OUT_OF_RANGE));
            }
            cells.push(number.value as u8);
            packed = packed << 6 | number.value as u64;
        }
        let cost = reader.number()?.value;
        if (default == 0) == (cost == 0) || seen.again(packed) {
            return Err(Fault {
                number: TUPLE_TWICE,
                at,
            });
        }
    }
    Ok(cells)
}

/// The tuples of a table so far, each packed into one number, with a mark at the key of each:
/// only a tuple whose key is marked can have been seen.
struct Seen {
    tuples: Vec<u64>,
    marks: [u64; 256],
}

impl Seen {
    fn new(count: usize) -> Self {
        Seen {
            tuples: Vec::with_capacity(count),
            marks: [0; 256],
        }
    }

    /// Whether the tuple was seen before; it is from now on.
    fn again(&mut self, tuple: u64) -> bool {
        let key = tuple.wrapping_mul(0x9e37_79b9_7f4a_7c15) >> 50;
        let mark = 1 << (key & 63);
        let marks = &mut self.marks[key as usize >> 6];
        if *marks & mark != 0 && self.tuples.contains(&tuple) {
            return true;
        }
        *marks |= mark;
        self.tuples.push(tuple);
        false
    }
}
