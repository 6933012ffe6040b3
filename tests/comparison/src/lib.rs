//! The proved functions, as safe Rust: here those of crate `comparison`, in `monuvaleck` the C interface.

pub mod calls;
pub mod halves;
pub mod met;
pub mod monuvaleck;
pub mod sides;

pub type Values = [i16; 64];

mod exported {
    use super::Values;

    extern "C" {
        pub fn expression_number(nodes: *const u8, len: usize, values: *const Values, node: u16) -> i64;
        pub fn expression_truth(nodes: *const u8, len: usize, values: *const Values, node: u16) -> i64;
        pub fn node_is_number(nodes: *const u8, len: usize, node: u16) -> bool;
        pub fn node_is_truth(nodes: *const u8, len: usize, node: u16) -> bool;
        pub fn nodes_named(nodes: *const u8, len: usize, size: u16, variables: u16) -> bool;
        pub fn operands_fit(nodes: *const u8, len: usize, size: u16) -> bool;
        pub fn count_operands(nodes: *const u8, len: usize, size: u16, uses: *mut u8, uses_len: usize);
        pub fn field_byte(bytes: *const u8, len: usize, at: usize) -> u8;
        pub fn field_u16(bytes: *const u8, len: usize, at: usize) -> u16;
        pub fn field_u32(bytes: *const u8, len: usize, at: usize) -> u32;
        pub fn field_i16(bytes: *const u8, len: usize, at: usize) -> i16;
        pub fn field_i32(bytes: *const u8, len: usize, at: usize) -> i32;
        pub fn write_u16(bytes: *mut u8, len: usize, at: usize, value: u16);
        pub fn write_u32(bytes: *mut u8, len: usize, at: usize, value: u32);
        pub fn write_i16(bytes: *mut u8, len: usize, at: usize, value: i16);
        pub fn write_i32(bytes: *mut u8, len: usize, at: usize, value: i32);
        pub fn framing(
            bytes: *const u8,
            len: usize,
            first: u8,
            most: *const u16,
            most_len: usize,
            counts: *mut [usize; 9],
            firsts: *mut [usize; 9],
        ) -> u8;
    }
}

/// A value, or the number of the fault, which stands above the numbers of 32 bits.
fn outcome(code: i64) -> Result<i32, u32> {
    i32::try_from(code).map_err(|_| u32::try_from(code - (1 << 32)).expect("a fault's number"))
}

pub fn number(nodes: &[u8], values: &Values, node: u16) -> Result<i32, u32> {
    outcome(unsafe { exported::expression_number(nodes.as_ptr(), nodes.len(), values, node) })
}

pub fn truth(nodes: &[u8], values: &Values, node: u16) -> Result<bool, u32> {
    outcome(unsafe { exported::expression_truth(nodes.as_ptr(), nodes.len(), values, node) }).map(|t| t == 1)
}

pub fn is_number(nodes: &[u8], node: u16) -> bool {
    unsafe { exported::node_is_number(nodes.as_ptr(), nodes.len(), node) }
}

pub fn is_truth(nodes: &[u8], node: u16) -> bool {
    unsafe { exported::node_is_truth(nodes.as_ptr(), nodes.len(), node) }
}

pub fn nodes_named(nodes: &[u8], size: u16, variables: u16) -> bool {
    unsafe { exported::nodes_named(nodes.as_ptr(), nodes.len(), size, variables) }
}

pub fn operands_fit(nodes: &[u8], size: u16) -> bool {
    unsafe { exported::operands_fit(nodes.as_ptr(), nodes.len(), size) }
}

pub fn count_operands(nodes: &[u8], size: u16, uses: &mut [u8]) {
    unsafe { exported::count_operands(nodes.as_ptr(), nodes.len(), size, uses.as_mut_ptr(), uses.len()) }
}

/// The field of each type at one place.
#[derive(Debug, PartialEq, Eq)]
pub struct Fields {
    pub byte: u8,
    pub unsigned: (u16, u32),
    pub signed: (i16, i32),
}

pub fn fields(bytes: &[u8], at: usize) -> Fields {
    let (start, len) = (bytes.as_ptr(), bytes.len());
    unsafe {
        Fields {
            byte: exported::field_byte(start, len, at),
            unsigned: (exported::field_u16(start, len, at), exported::field_u32(start, len, at)),
            signed: (exported::field_i16(start, len, at), exported::field_i32(start, len, at)),
        }
    }
}

/// One value written at a place.
#[derive(Clone, Copy, Debug)]
pub enum Value {
    U16(u16),
    U32(u32),
    I16(i16),
    I32(i32),
}

pub fn write(bytes: &mut [u8], at: usize, value: Value) {
    let (start, len) = (bytes.as_mut_ptr(), bytes.len());
    unsafe {
        match value {
            Value::U16(v) => exported::write_u16(start, len, at, v),
            Value::U32(v) => exported::write_u32(start, len, at, v),
            Value::I16(v) => exported::write_i16(start, len, at, v),
            Value::I32(v) => exported::write_i32(start, len, at, v),
        }
    }
}

/// The refusal's number, or 0, then the counts and the first records of nine kinds.
pub fn framing(bytes: &[u8], first: u8, most: &[u16]) -> (u8, [usize; 9], [usize; 9]) {
    let (mut counts, mut firsts) = ([7; 9], [7; 9]);
    let number = unsafe {
        exported::framing(
            bytes.as_ptr(),
            bytes.len(),
            first,
            most.as_ptr(),
            most.len(),
            &mut counts,
            &mut firsts,
        )
    };
    (number, counts, firsts)
}
