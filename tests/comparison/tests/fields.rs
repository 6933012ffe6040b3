//! Fields of bytes, read and written at any place, past the end too.

use comparison::{fields, write, Fields, Value};
use simulator::Random;

/// Four bytes from a place on, those past the end 0.
fn window(bytes: &[u8], at: usize) -> [u8; 4] {
    std::array::from_fn(|k| at.checked_add(k).and_then(|i| bytes.get(i)).copied().unwrap_or(0))
}

fn expected(bytes: &[u8], at: usize) -> Fields {
    let w = window(bytes, at);
    let pair = [w[0], w[1]];
    Fields {
        byte: w[0],
        unsigned: (u16::from_le_bytes(pair), u32::from_le_bytes(w)),
        signed: (i16::from_le_bytes(pair), i32::from_le_bytes(w)),
    }
}

fn some_byte(random: &mut Random) -> u8 {
    let any = random.u8();
    random.pick(&[0, 1, 127, 128, 254, 255, any])
}

fn some_bytes(random: &mut Random) -> Vec<u8> {
    (0..random.below(40)).map(|_| some_byte(random)).collect()
}

fn some_place(random: &mut Random, len: usize) -> usize {
    match random.below(10) {
        0 => usize::MAX - random.below(5),
        1 => len + random.below(5),
        _ => random.below(len + 1),
    }
}

#[test]
fn reads_agree_at_any_place() {
    let mut random = Random::new(1);
    for _ in 0..50_000 {
        let bytes = some_bytes(&mut random);
        let at = some_place(&mut random, bytes.len());
        assert_eq!(fields(&bytes, at), expected(&bytes, at), "at {at} of {bytes:?}");
    }
}

#[test]
fn minus_three_is_fd_ff() {
    assert_eq!(fields(&[0xfd, 0xff], 0).signed.0, -3);
    let mut bytes = [0; 2];
    write(&mut bytes, 0, Value::I16(-3));
    assert_eq!(bytes, [0xfd, 0xff]);
}

fn bytes_of(value: Value) -> Vec<u8> {
    match value {
        Value::U16(v) => v.to_le_bytes().to_vec(),
        Value::U32(v) => v.to_le_bytes().to_vec(),
        Value::I16(v) => v.to_le_bytes().to_vec(),
        Value::I32(v) => v.to_le_bytes().to_vec(),
    }
}

fn some_value(random: &mut Random) -> Value {
    let bits = random.next_u64() as u32;
    match random.below(4) {
        0 => Value::U16(bits as u16),
        1 => Value::U32(bits),
        2 => Value::I16(random.pick(&[i16::MIN, -3, -1, 0, i16::MAX, bits as i16])),
        _ => Value::I32(random.pick(&[i32::MIN, -3, -1, 0, i32::MAX, bits as i32])),
    }
}

#[test]
fn writes_keep_all_other_bytes() {
    let mut random = Random::new(2);
    for _ in 0..50_000 {
        let before = some_bytes(&mut random);
        let at = some_place(&mut random, before.len());
        let value = some_value(&mut random);
        let mut right = before.clone();
        for (k, byte) in bytes_of(value).into_iter().enumerate() {
            if let Some(place) = at.checked_add(k).and_then(|i| right.get_mut(i)) {
                *place = byte;
            }
        }
        let mut after = before.clone();
        write(&mut after, at, value);
        assert_eq!(after, right, "{value:?} at {at} of {before:?}");
    }
}
