//! Exact amounts of 64 bits, beside the machine's own floats.

use second::amount::Amount;

/// Patterns of every class without a sign: zero, subnormals, normals.
const FINITE: [u64; 24] = [
    0,
    1,
    2,
    3,
    0x0007_FFFF_FFFF_FFFF,
    0x0008_0000_0000_0000,
    0x000F_FFFF_FFFF_FFFF,
    0x0010_0000_0000_0000,
    0x0010_0000_0000_0001,
    0x001F_FFFF_FFFF_FFFF,
    0x0020_0000_0000_0000,
    0x3C90_0000_0000_0000,
    0x3FEF_FFFF_FFFF_FFFF,
    0x3FF0_0000_0000_0000,
    0x3FF0_0000_0000_0001,
    0x4014_0000_0000_0000,
    0x40C3_8800_0000_0000,
    0x4330_0000_0000_0000,
    0x4340_0000_0000_0001,
    0x43EF_FFFF_FFFF_FFFF,
    0x43F0_0000_0000_0000,
    0x47F0_0000_0000_0000,
    0x7FE0_0000_0000_0000,
    0x7FEF_FFFF_FFFF_FFFF,
];

const SIGN: u64 = 1 << 63;

fn amount(bits: u64) -> Amount {
    Amount::of_bits(bits).unwrap_or_else(|| panic!("{bits:016X}"))
}

/// Many patterns, the same at every run.
fn any_patterns(count: usize) -> impl Iterator<Item = u64> {
    let mut last: u64 = 0x9E37_79B9_7F4A_7C15;
    (0..count).map(move |_| {
        last ^= last << 13;
        last ^= last >> 7;
        last ^= last << 17;
        last
    })
}

#[test]
fn what_is_no_amount() {
    for bits in [
        0x7FF0_0000_0000_0000, // infinity
        0x7FF0_0000_0000_0001, // signalling
        0x7FF7_FFFF_FFFF_FFFF,
        0x7FF8_0000_0000_0000, // quiet
        0x7FF8_0000_0000_0001,
        0x7FFF_FFFF_FFFF_FFFF,
    ] {
        assert_eq!(Amount::of_bits(bits), None, "{bits:016X}");
        assert_eq!(Amount::of_bits(bits | SIGN), None, "{bits:016X}");
    }
    for bits in FINITE {
        let below = Amount::of_bits(bits | SIGN);
        assert_eq!(below.is_none(), bits != 0, "{bits:016X}");
    }
}

#[test]
fn minus_zero_is_zero() {
    assert_eq!(amount(SIGN), amount(0));
    assert_eq!(amount(SIGN), Amount::from(0));
    assert!(amount(SIGN) < amount(1));
}

#[test]
fn order_of_every_pair() {
    for one in FINITE {
        for other in FINITE {
            let due = f64::from_bits(one).partial_cmp(&f64::from_bits(other));
            let own = amount(one).cmp(&amount(other));
            assert_eq!(Some(own), due, "{one:016X} {other:016X}");
        }
    }
}

#[test]
fn order_of_any_pair() {
    let patterns: Vec<u64> = any_patterns(40_000).collect();
    for pair in patterns.windows(2) {
        let amounts = (Amount::of_bits(pair[0]), Amount::of_bits(pair[1]));
        let floats = (f64::from_bits(pair[0]), f64::from_bits(pair[1]));
        for (own, float) in [(amounts.0, floats.0), (amounts.1, floats.1)] {
            let is_amount = float.is_finite() && float >= 0.0;
            assert_eq!(own.is_some(), is_amount, "{:016X}", float.to_bits());
        }
        if let (Some(one), Some(other)) = amounts {
            assert_eq!(Some(one.cmp(&other)), floats.0.partial_cmp(&floats.1));
        }
    }
}

/// Every whole number of two bytes, with the patterns one step below and above.
#[test]
fn whole_numbers() {
    for whole in 0..=u16::MAX {
        let bits = f64::from(whole).to_bits();
        let own = Amount::from(whole);
        assert_eq!(own, amount(bits));
        assert!(own < amount(bits + 1));
        if whole > 0 {
            assert!(amount(bits - 1) < own);
            assert!(Amount::from(whole - 1) < amount(bits - 1));
        }
    }
}
