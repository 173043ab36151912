//! The numbers that generated drawings are made of. A palette says where
//! coordinates come from and where sizes (widths, heights, thresholds,
//! cutoffs) come from; sizes are above 0.

use crate::random::Random;

#[derive(Clone, Copy)]
pub struct Palette {
    pub coordinate: fn(&mut Random) -> f64,
    pub size: fn(&mut Random) -> f64,
}

/// The largest coordinate on the grid, and the grid's step.
pub const GRID_END: f64 = 1_048_576.0;
pub const GRID_STEP: f64 = 1.0 / 64.0;

/// Whole numbers so small that most coordinates meet; a zero may be -0.
pub const TINY: Palette = Palette {
    coordinate: |random| {
        let value = random.between(0, 3) as f64;
        random.either_sign(value)
    },
    size: |random| random.between(1, 3) as f64,
};

/// Little else than zeros of both signs.
pub const ZEROS: Palette = Palette {
    coordinate: |random| random.pick(&[0.0, -0.0, 0.0, -0.0, 1.0, -1.0]),
    size: |random| random.pick(&[1.0, 1.0, 2.0, GRID_STEP]),
};

/// Multiples of 1/64 in a narrow field.
pub const GRID: Palette = Palette {
    coordinate: |random| random.between(-900, 900) as f64 * GRID_STEP,
    size: |random| random.between(1, 500) as f64 * GRID_STEP,
};

/// The ends of the grid, its smallest values, and what lies beside them.
pub const GRID_EDGE: Palette = Palette {
    coordinate: |random| {
        let value = random.pick(&[
            0.0,
            GRID_STEP,
            2.0 * GRID_STEP,
            1.0,
            GRID_END / 2.0,
            GRID_END - GRID_STEP,
            GRID_END,
        ]);
        random.either_sign(value)
    },
    size: |random| random.pick(&[GRID_STEP, 1.0, GRID_END - GRID_STEP, GRID_END]),
};

/// Sums of tenths: off the grid, and different by a rounding here and there.
pub const DECIMALS: Palette = Palette {
    coordinate: |random| random.between(-9, 9) as f64 / 10.0 + random.between(-3, 3) as f64 / 10.0,
    size: |random| random.between(1, 9) as f64 / 10.0,
};

/// Values next to one another around 1, where every gap is a few last places.
pub const NEIGHBOURS: Palette = Palette {
    coordinate: |random| 1.0 + random.between(-6, 6) as f64 * f64::EPSILON / 2.0,
    size: |random| random.between(1, 6) as f64 * f64::EPSILON / 2.0,
};

/// Values so large that edges and gaps overflow.
pub const HUGE: Palette = Palette {
    coordinate: |random| {
        let value = random.pick(&[
            0.0,
            1.0,
            1e292,
            1e300,
            1e308,
            f64::MAX / 2.0,
            1.7e308,
            f64::MAX,
        ]);
        random.either_sign(value)
    },
    size: |random| random.pick(&[1.0, 1e291, 1e300, 1e308, f64::MAX / 2.0, f64::MAX]),
};

/// Subnormal values, and the least normal ones.
pub const SUBNORMAL: Palette = Palette {
    coordinate: |random| {
        let near_zero = f64::from_bits(random.below(6) as u64);
        let near_normal = f64::from_bits(f64::MIN_POSITIVE.to_bits() - 3 + random.below(6) as u64);
        let value = random.pick(&[near_zero, near_zero, near_normal]);
        random.either_sign(value)
    },
    size: |random| {
        let near_zero = f64::from_bits(1 + random.below(6) as u64);
        random.pick(&[near_zero, f64::MIN_POSITIVE, 2.0 * f64::MIN_POSITIVE])
    },
};

/// Any finite bits at all.
pub const ANY_BITS: Palette = Palette {
    coordinate: finite_bits,
    size: |random| finite_bits(random).abs().max(f64::from_bits(1)),
};

/// A wide part of the grid with short sizes, for long lists.
pub const WIDE: Palette = Palette {
    coordinate: |random| random.between(-(1 << 21), 1 << 21) as f64 * GRID_STEP,
    size: |random| random.between(1, 1 << 14) as f64 * GRID_STEP,
};

fn finite_bits(random: &mut Random) -> f64 {
    loop {
        let value = f64::from_bits(random.word());
        if value.is_finite() {
            return value;
        }
    }
}
