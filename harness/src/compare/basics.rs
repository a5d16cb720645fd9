//! The functions on single values and on lists that the operations are built of, beside Rust's own.

use super::{Outcome, Run};
use crate::port::inner;
use crate::rng::Rng;

pub fn unit(run: &Run) -> Outcome {
    each(run, any, |x| {
        let (want, have) = (x.to_bits() <= 0x3F80_0000, inner::unit(x));
        (want != have).then(|| format!("Rust {want}, port {have}"))
    })
}

pub fn magnitude(run: &Run) -> Outcome {
    each(run, |x| !x.is_nan(), |x| unlike(x.abs(), inner::magnitude(x)))
}

pub fn truncated(run: &Run) -> Outcome {
    each(run, any, |x| {
        let (want, size, have) = (x as u64, x as usize, inner::truncated(x));
        (want != have || size as u64 != have)
            .then(|| format!("Rust {want} as u64, {size} as usize, port {have}"))
    })
}

pub fn larger(run: &Run) -> Outcome {
    let mut rng = Rng::new(run.seed);
    let mut count = 0u64;
    let mut one = |a: f32, b: f32| -> Result<(), String> {
        count += 1;
        let want = if a > b { a } else { b };
        unlike(want, inner::larger(a, b)).map_or(Ok(()), |found| {
            Err(format!("case {count}, bits {:08x} and {:08x}: {found}", a.to_bits(), b.to_bits()))
        })
    };
    let patterns = patterns();
    for &a in &patterns {
        for &b in &patterns {
            one(f32::from_bits(a), f32::from_bits(b))?;
        }
    }
    for _ in 0..run.choose(10_000_000, 500_000_000) {
        let (a, b) = (rng.word(), rng.word());
        one(f32::from_bits(a), f32::from_bits(b))?;
    }
    Ok(count.into())
}

pub fn entry(run: &Run) -> Outcome {
    let mut rng = Rng::new(run.seed);
    let mut count = 0u64;
    for _ in 0..run.choose(5, 100) {
        for len in 0..=300 {
            list(&mut rng, len, &mut count)?;
        }
    }
    for _ in 0..run.choose(50, 2_000) {
        list(&mut rng, 4096, &mut count)?;
    }
    if run.long {
        list(&mut rng, 1 << 20, &mut count)?;
        list(&mut rng, 1 << 24, &mut count)?;
    }
    Ok(count.into())
}

/// One list, with the bound exact and larger: all entries of a short one, some of a long one, and
/// places past its end.
fn list(rng: &mut Rng, len: usize, count: &mut u64) -> Result<(), String> {
    // few values for many ties, scores, or any
    let values = rng.pick(&[1, 2, 5, 4097, 1 << 32]);
    let list: Vec<u32> = (0..len).map(|_| rng.below(values) as u32).collect();
    let mut sorted = list.clone();
    sorted.sort();
    let exact = sorted.last().copied().unwrap_or(0);
    let above = exact + rng.below((u32::MAX - exact) as usize + 1) as u32;

    let mut places = vec![0, len.saturating_sub(1), len, len + 1, usize::MAX];
    if len <= 40 {
        places.extend(0..len);
    } else {
        places.extend((0..6).map(|_| rng.below(len)));
    }
    for most in [exact, above, u32::MAX] {
        for &j in &places {
            *count += 1;
            let (want, have) = (sorted.get(j).copied().unwrap_or(0), inner::entry(&list, j, most));
            if want != have {
                let shown =
                    if len <= 40 { format!("{list:?}") } else { format!("a list of {len}") };
                return Err(format!(
                    "case {count}, entry {j} of {shown}, bound {most}: Rust {want}, port {have}"
                ));
            }
        }
    }
    Ok(())
}

/// Values that are not the same, by their bits. One NaN is as good as another.
fn unlike(want: f32, have: f32) -> Option<String> {
    let same = if want.is_nan() { have.is_nan() } else { want.to_bits() == have.to_bits() };
    (!same).then(|| format!("Rust {:08x}, port {:08x}", want.to_bits(), have.to_bits()))
}

fn any(_: f32) -> bool {
    true
}

/// A function of one value, where it takes that: the chosen patterns and random ones, or, in the
/// long run, all that there are.
fn each(
    run: &Run,
    takes: impl Fn(f32) -> bool,
    differs: impl Fn(f32) -> Option<String>,
) -> Outcome {
    let mut count = 0u64;
    let mut one = |bits: u32| -> Result<(), String> {
        let x = f32::from_bits(bits);
        if !takes(x) {
            return Ok(());
        }
        count += 1;
        differs(x).map_or(Ok(()), |found| Err(format!("case {count}, bits {bits:08x}: {found}")))
    };
    if run.long {
        for bits in 0..=u32::MAX {
            one(bits)?;
        }
    } else {
        for bits in patterns() {
            one(bits)?;
        }
        let mut rng = Rng::new(run.seed);
        for _ in 0..10_000_000 {
            one(rng.word())?;
        }
    }
    Ok(count.into())
}

/// Zeros, subnormal values, powers of two with their neighbours, 1.0 with its neighbours,
/// infinities and values that are no number, all with both signs.
fn patterns() -> Vec<u32> {
    let mut out = vec![0, 1, 2, 3, 0x0040_0000, 0x007F_FFFE, 0x007F_FFFF];
    for exponent in 1..=254 {
        let power = exponent << 23;
        out.extend([power - 1, power, power + 1]);
    }
    out.extend([0x3F7F_FFFE, 0x3F80_0002, 0x4B7F_FFFF, 0x5F7F_FFFF, 0x7F7F_FFFF, 0x7F80_0000]);
    out.extend([0x7F80_0001, 0x7FA0_0000, 0x7FBF_FFFF, 0x7FC0_0000, 0x7FC0_0001, 0x7FFF_FFFF]);
    // halves and thirds, where truncation drops something
    out.extend(
        [0.5, 1.5, 2.5, 0.999_999_94, 1_000_000.5, 1.0 / 3.0, 4095.999_8, 2_420.55]
            .map(f32::to_bits),
    );
    out.sort();
    out.dedup();
    out.iter().flat_map(|&bits| [bits, bits | 0x8000_0000]).collect()
}
