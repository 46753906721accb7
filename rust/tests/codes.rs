//! The leaves against the paper's rules, over edges, halves, random numbers and scales of every kind.
mod common;

use common::{bits, made, numbers, paper};
use dice::Dice;
use karonjeenu::{codes, Format, Refusal};

/// The edges, and the numbers around halves, where a rounding goes wrong.
fn edges_and_halves() -> Vec<f32> {
    let around_halves = (-40_i8..=40).flat_map(|half| {
        let bits = (f32::from(half) / 2.0).to_bits();
        [bits.wrapping_sub(1), bits, bits + 1].map(f32::from_bits)
    });
    let edges = numbers::EDGES.map(f32::from_bits).into_iter();
    edges.chain(around_halves).collect()
}

#[test]
fn codes_are_the_papers() {
    let mut dice = Dice::new(20);
    let scales: Vec<f32> = edges_and_halves()
        .into_iter()
        .step_by(3)
        .chain(numbers::plains(&mut dice, 20))
        .collect();
    for x in edges_and_halves()
        .into_iter()
        .chain(numbers::any(&mut dice, 100))
    {
        for scale in &scales {
            let (one, other) = (codes::quantize_i8(x, *scale), codes::quantize_i4(x, *scale));
            assert_eq!(one, paper::code8(x, *scale), "{x:?} by {scale:?}");
            assert_eq!(other, paper::code4(x, *scale), "{x:?} by {scale:?}");
        }
    }
}

#[test]
fn scales_are_the_papers() {
    let mut dice = Dice::new(21);
    for length in 0..200 {
        let run = numbers::any(&mut dice, length);
        let (one, other) = (codes::int8_scale(&run), codes::int4_scale(&run));
        assert_eq!(one.to_bits(), paper::int8_scale(&run).to_bits());
        assert_eq!(other.to_bits(), paper::int4_scale(&run).to_bits());
    }
}

#[test]
fn int8_codes_read_as_the_paper_has_it() {
    for code in i8::MIN..=i8::MAX {
        for scale in edges_and_halves() {
            let read = codes::dequantize_i8(code, scale);
            let wanted = f32::from(code) * scale;
            assert_eq!(bits(&[read]), made(&[wanted]), "{code} by {scale:?}");
        }
    }
}

#[test]
fn groups_are_the_papers() {
    let mut dice = Dice::new(22);
    for _ in 0..200 {
        let group = numbers::any(&mut dice, 33);
        let scale = codes::int4_scale(&group[..32]);
        let mut packed = [0xA5; 17];
        assert_eq!(codes::pack_i4_group(&group, scale, &mut packed), Ok(()));
        assert_eq!(packed[..16], paper::packed(&group, scale));
        assert_eq!(packed[16], 0xA5, "only 16 bytes are written");
        let mut read = [0.125; 33];
        assert_eq!(codes::unpack_i4_group(&packed, scale, &mut read), Ok(()));
        let wanted = paper::read(Format::Int4, &group[..32]);
        assert_eq!(bits(&read[..32]), made(&wanted));
        assert_eq!(
            bits(&read[32..]),
            bits(&[0.125]),
            "only 32 numbers are written"
        );
    }
}

#[test]
fn short_groups_are_refused() {
    let (group, packed) = ([1.0; 32], [0x5A; 16]);
    for (numbers, bytes) in [(31, 16), (32, 15), (0, 16), (32, 0), (0, 0)] {
        let (mut dst, mut out) = (packed, group);
        let answer = codes::pack_i4_group(&group[..numbers], 1.0, &mut dst[..bytes]);
        assert_eq!((answer, dst), (Err(Refusal::Size), packed));
        let answer = codes::unpack_i4_group(&packed[..bytes], 1.0, &mut out[..numbers]);
        assert_eq!((answer, out), (Err(Refusal::Size), group));
    }
}

#[test]
fn bf16_is_the_papers() {
    for half in 0..=u16::MAX {
        let read = codes::bf16_to_f32(half);
        assert_eq!(read.to_bits(), paper::from_bf16(half).to_bits());
        for low in [0, 1, 0x7FFF, 0x8000, 0x8001, 0xFFFF] {
            let x = f32::from_bits(read.to_bits() | low);
            assert_eq!(codes::f32_to_bf16(x), paper::bf16(x), "{:08X}", x.to_bits());
        }
    }
}
