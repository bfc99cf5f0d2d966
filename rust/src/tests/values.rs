//! Block values: read, written and made as documents 01 and 02 say.

use super::calls::Random;
use super::model;
use crate::{BlockValue, InvalidBlockValue, Mode};

const MODES: [Mode; 2] = [Mode::Plain, Mode::Strict];

fn same_reading(mode: Mode, option: &[u8]) {
    let value = BlockValue::read(mode, option);
    assert_eq!(value, model::read(mode, Some(option)), "{mode:?} {option:?}");
    if let Some(value) = value {
        let shortest = &option[option.iter().take_while(|&&byte| byte == 0).count()..];
        assert_eq!(&value.write(mode)[..], shortest);
        assert_eq!(value.size() as u64, model::size(value));
    }
}

/// Every option of at most three bytes.
#[test]
fn options() {
    for mode in MODES {
        same_reading(mode, &[]);
        for n in 0..1_u32 << 24 {
            let [_, a, b, c] = n.to_be_bytes();
            if n < 1 << 8 {
                same_reading(mode, &[c]);
            }
            if n < 1 << 16 {
                same_reading(mode, &[b, c]);
            }
            same_reading(mode, &[a, b, c]);
        }
    }
}

/// Longer options count as absent, whatever stands in them.
#[test]
fn long_options() {
    let mut random = Random(7);
    for mode in MODES {
        for len in 4..300 {
            for option in [vec![0; len], vec![255; len], (0..len).map(|_| random.next() as u8).collect()] {
                assert_eq!(BlockValue::read(mode, &option), None, "{mode:?} {option:?}");
                same_reading(mode, &option);
            }
        }
    }
    assert_eq!(BlockValue::read(Mode::Plain, &[0, 0, 8]), None);
    assert_eq!(BlockValue::read(Mode::Strict, &[0, 0, 8]), Some(BlockValue { num: 0, more: true, size_exponent: 0 }));
}

#[test]
fn made() {
    for mode in MODES {
        for num in [0, 1, 4095, 4096, 65_535, 65_536, 1_048_575, 1_048_576, 1 << 32, usize::MAX] {
            for size in (0..5000).chain([1 << 16, 1 << 32, usize::MAX]) {
                let meant = model::make(mode, num as u64, true, size as u64);
                assert_eq!(BlockValue::new(mode, num, true, size).ok(), meant, "{mode:?} {num} {size}");
            }
        }
        assert_eq!(BlockValue::new(mode, 0, false, 4096), Err(InvalidBlockValue::Size(4096)));
    }
    for (mode, last) in [(Mode::Plain, 65_535), (Mode::Strict, 1_048_575)] {
        assert_eq!(BlockValue::new(mode, last, false, 16), Ok(BlockValue { num: last as u32, more: false, size_exponent: 0 }));
        assert_eq!(BlockValue::new(mode, last + 1, false, 16), Err(InvalidBlockValue::Num(last + 1)));
    }
}

/// What is made in strict mode is read as it was written.
#[test]
fn written_and_read() {
    for num in 0..1 << 20 {
        for (more, size) in [(false, 16), (true, 64), (true, 2048)] {
            let value = BlockValue::new(Mode::Strict, num, more, size).unwrap();
            let option = value.write(Mode::Strict);
            assert_eq!(option[..], model::write(Mode::Strict, value), "{value:?}");
            assert_eq!(BlockValue::read(Mode::Strict, &option), Some(value), "{value:?}");
        }
    }
}

/// Of any num the mode writes what its options can hold.
#[test]
fn written_modulo() {
    let mut random = Random(8);
    let edges = [4095, 4096, 4097, 65_535, 65_536, 1_048_575, 1_048_576, 1_048_577, u32::MAX];
    let nums = edges.into_iter().chain((0..100_000).map(|_| random.next() as u32)).collect::<Vec<_>>();
    for mode in MODES {
        for &num in &nums {
            let value = BlockValue { num, more: num % 3 == 0, size_exponent: (num % 8) as u8 };
            assert_eq!(value.write(mode)[..], model::write(mode, value), "{mode:?} {value:?}");
        }
    }
    let value = BlockValue { num: 4097, more: true, size_exponent: 2 };
    assert_eq!((&value.write(Mode::Plain)[..], &value.write(Mode::Strict)[..]), (&[0x1a][..], &[0x01, 0x00, 0x1a][..]));
    assert_eq!(BlockValue { num: 4096, ..BlockValue::default() }.write(Mode::Plain)[..], []);
    assert_eq!(BlockValue { num: 1_048_576, ..BlockValue::default() }.write(Mode::Strict)[..], []);
}
