//! The three scales: their codes, sums, products, inverses and velocities.

#[derive(Clone, Copy, Debug, PartialEq, Eq)]
pub enum Scale {
    Gates,
    Accents,
    Lanes,
}

/// All products of lanes, made by the polynomial product and the reduction by a^4 + a + 1.
const LANES: [[u8; 16]; 16] = lane_products();

const fn lane_products() -> [[u8; 16]; 16] {
    let mut table = [[0; 16]; 16];
    let mut a = 0;
    while a < 16 {
        let mut b = 0;
        while b < 16 {
            table[a][b] = lane_product(a as u8, b as u8);
            b += 1;
        }
        a += 1;
    }
    table
}

const fn lane_product(a: u8, b: u8) -> u8 {
    let mut product = 0;
    let mut bit = 0;
    while bit < 4 {
        if b >> bit & 1 == 1 {
            product ^= a << bit;
        }
        bit += 1;
    }
    let mut high = 6;
    while high >= 4 {
        if product >> high & 1 == 1 {
            product ^= 0b1_0011 << (high - 4);
        }
        high -= 1;
    }
    product
}

impl Scale {
    pub const ALL: [Scale; 3] = [Scale::Gates, Scale::Accents, Scale::Lanes];

    pub fn name(self) -> &'static str {
        match self {
            Scale::Gates => "gates",
            Scale::Accents => "accents",
            Scale::Lanes => "lanes",
        }
    }

    pub fn named(word: &str) -> Option<Scale> {
        Scale::ALL.into_iter().find(|scale| scale.name() == word)
    }

    /// How many codes there are.
    pub fn codes(self) -> u8 {
        match self {
            Scale::Gates => 2,
            Scale::Accents => 127,
            Scale::Lanes => 16,
        }
    }

    pub fn sum(self, a: u8, b: u8) -> u8 {
        match self {
            Scale::Gates | Scale::Lanes => a ^ b,
            Scale::Accents => (a + b) % 127,
        }
    }

    pub fn product(self, a: u8, b: u8) -> u8 {
        match self {
            Scale::Gates => a & b,
            Scale::Accents => (u16::from(a) * u16::from(b) % 127) as u8,
            Scale::Lanes => LANES[usize::from(a)][usize::from(b)],
        }
    }

    pub fn negative(self, a: u8) -> u8 {
        match self {
            Scale::Gates | Scale::Lanes => a,
            Scale::Accents => (127 - a) % 127,
        }
    }

    pub fn difference(self, a: u8, b: u8) -> u8 {
        self.sum(a, self.negative(b))
    }

    /// The code that gives 1 with `a`, found by trying all; 0 for 0.
    pub fn inverse(self, a: u8) -> u8 {
        (1..self.codes())
            .find(|&b| self.product(a, b) == 1)
            .unwrap_or(0)
    }

    pub fn velocity(self, a: u8) -> u8 {
        match self {
            Scale::Gates => 100 * a,
            Scale::Accents => a,
            Scale::Lanes => 8 * a,
        }
    }
}

#[cfg(test)]
mod tests {
    use super::Scale;

    #[test]
    fn some_products_and_sums() {
        assert_eq!(Scale::Lanes.product(2, 8), 3);
        assert_eq!(Scale::Lanes.product(2, 9), 1);
        assert_eq!(Scale::Lanes.product(15, 15), 10);
        assert_eq!(Scale::Accents.product(126, 126), 1);
        assert_eq!(Scale::Accents.product(2, 64), 1);
        assert_eq!(Scale::Accents.sum(126, 1), 0);
    }

    #[test]
    fn laws_of_one_and_two_codes() {
        for scale in Scale::ALL {
            for a in 0..scale.codes() {
                assert_eq!(scale.sum(a, 0), a);
                assert_eq!(scale.product(a, 1), a);
                assert_eq!(scale.sum(a, scale.negative(a)), 0);
                assert_eq!(scale.product(a, scale.inverse(a)), u8::from(a != 0));
                assert_eq!(scale.velocity(a) == 0, a == 0);
                assert!(scale.velocity(a) <= 127);
                for b in 0..scale.codes() {
                    assert!(scale.sum(a, b) < scale.codes());
                    assert!(scale.product(a, b) < scale.codes());
                    assert_eq!(scale.sum(a, b), scale.sum(b, a));
                    assert_eq!(scale.product(a, b), scale.product(b, a));
                }
            }
        }
    }

    #[test]
    fn laws_of_three_codes() {
        for scale in Scale::ALL {
            let codes = || 0..scale.codes();
            for (a, b) in codes().flat_map(|a| codes().map(move |b| (a, b))) {
                for c in codes() {
                    let (ab, bc) = (scale.product(a, b), scale.product(b, c));
                    assert_eq!(scale.product(ab, c), scale.product(a, bc));
                    let sum = scale.sum(b, c);
                    assert_eq!(scale.sum(scale.sum(a, b), c), scale.sum(a, sum));
                    let parts = scale.sum(ab, scale.product(a, c));
                    assert_eq!(scale.product(a, sum), parts);
                }
            }
        }
    }
}
