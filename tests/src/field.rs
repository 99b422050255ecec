//! The fields below the cipher: bytes, words, α, the substitution T, and the tables made from them.
//!
//! Byte j of a word, byte 0 being the least significant, is the coefficient of z^j.

/// The four tables π0 .. π3 of DSTU 7624:2014.
const PI: &str = include_str!("../../data/pi-tables.txt");

/// Row 0 of the matrix M of T; row i is row 0 rotated right by i places.
pub const M: [u8; 8] = [0x01, 0x01, 0x05, 0x01, 0x08, 0x06, 0x07, 0x04];

/// Row 0 of the inverse of M, rotated likewise.
pub const M_INVERSE: [u8; 8] = [0xad, 0x95, 0x76, 0xa8, 0x2f, 0x49, 0xd7, 0xca];

/// The product of two bytes as polynomials, modulo y^8 + y^4 + y^3 + y^2 + 1.
pub fn multiply(a: u8, b: u8) -> u8 {
    let mut product = 0;
    for i in 0..8 {
        if b >> i & 1 == 1 {
            product ^= u16::from(a) << i;
        }
    }
    for i in (8..15).rev() {
        if product >> i & 1 == 1 {
            product ^= 0x11d << (i - 8);
        }
    }
    product as u8
}

/// The byte that gives 1 when multiplied by a; a is not 0.
pub fn inverse(a: u8) -> u8 {
    (1..=255)
        .find(|&b| multiply(a, b) == 1)
        .expect("every byte but 0 has an inverse")
}

/// β^n, β being the byte 02.
pub fn beta(n: usize) -> u8 {
    (0..n).fold(1, |power, _| multiply(power, 2))
}

/// The coefficients g0 .. g7 of
/// g(z) = z^8 + β^170 z^7 + β^166 z^6 + β^2 z^5 + β^224 z^4 + β^70 z^3 + β^2.
pub fn g() -> [u8; 8] {
    let (b2, b70, b166, b170, b224) = (beta(2), beta(70), beta(166), beta(170), beta(224));
    [b2, 0, 0, b70, b224, b2, b166, b170]
}

/// w·z modulo g: w7·z^8 is w7·(g7·z^7 + .. + g0).
pub fn times_alpha(g: &[u8; 8], w: u64) -> u64 {
    let w = w.to_le_bytes();
    let mut product = [0; 8];
    for j in 0..8 {
        let moved = if j > 0 { w[j - 1] } else { 0 };
        product[j] = moved ^ multiply(w[7], g[j]);
    }
    u64::from_le_bytes(product)
}

/// w/z modulo g: with c = w0/g0 the constant term of w + c·g is 0, and what is left is divided by z.
pub fn over_alpha(g: &[u8; 8], w: u64) -> u64 {
    let w = w.to_le_bytes();
    let c = multiply(w[0], inverse(g[0]));
    let mut quotient = [c; 8];
    for j in 0..7 {
        quotient[j] = w[j + 1] ^ multiply(c, g[j + 1]);
    }
    u64::from_le_bytes(quotient)
}

/// The matrix with this row 0, times the bytes of the word r.
pub fn matrix_times(row: &[u8; 8], r: u64) -> u64 {
    let r = r.to_le_bytes();
    let mut q = [0; 8];
    for i in 0..8 {
        for j in 0..8 {
            q[i] ^= multiply(row[(8 + j - i) % 8], r[j]);
        }
    }
    u64::from_le_bytes(q)
}

/// π0 .. π3 from their file: lines of bytes in hexadecimal, and comments behind #.
fn read_pi() -> [[u8; 256]; 4] {
    let bytes: Vec<u8> = PI
        .lines()
        .filter(|line| !line.starts_with('#'))
        .flat_map(str::split_whitespace)
        .map(|byte| u8::from_str_radix(byte, 16).expect("π tables: bytes in hexadecimal"))
        .collect();
    assert_eq!(bytes.len(), 4 * 256, "π tables: four of 256 bytes");
    let mut pi = [[0; 256]; 4];
    for (table, bytes) in pi.iter_mut().zip(bytes.chunks_exact(256)) {
        table.copy_from_slice(bytes);
    }
    pi
}

/// The constants of the cipher, each table made once from its rule.
pub struct Tables {
    /// π0 .. π3.
    pub pi: [[u8; 256]; 4],
    /// The inverses of π0 .. π3.
    pub pi_inverse: [[u8; 256]; 4],
    /// Entry c is c·z^7 times α.
    pub alpha: [u64; 256],
    /// Entry c is c over α.
    pub alpha_inverse: [u64; 256],
    /// Entry a of table j is M times the word whose byte j is entry a of π(j mod 4), the others
    /// being 0.
    pub columns: [[u64; 256]; 8],
    /// Entry b of table j is the inverse of M times the word whose byte j is b, the others being 0.
    pub columns_inverse: [[u64; 256]; 8],
}

impl Tables {
    pub fn new() -> Tables {
        let g = g();
        let mut tables = Tables {
            pi: read_pi(),
            pi_inverse: [[0; 256]; 4],
            alpha: [0; 256],
            alpha_inverse: [0; 256],
            columns: [[0; 256]; 8],
            columns_inverse: [[0; 256]; 8],
        };
        for a in 0..=255u8 {
            let i = usize::from(a);
            tables.alpha[i] = times_alpha(&g, u64::from(a) << 56);
            tables.alpha_inverse[i] = over_alpha(&g, u64::from(a));
            for j in 0..8 {
                let substituted = tables.pi[j % 4][i];
                tables.pi_inverse[j % 4][usize::from(substituted)] = a;
                tables.columns[j][i] = matrix_times(&M, u64::from(substituted) << (8 * j));
                tables.columns_inverse[j][i] = matrix_times(&M_INVERSE, u64::from(a) << (8 * j));
            }
        }
        tables
    }

    /// w times α.
    pub fn times_alpha(&self, w: u64) -> u64 {
        w << 8 ^ self.alpha[(w >> 56) as usize]
    }

    /// w times α^-1.
    pub fn over_alpha(&self, w: u64) -> u64 {
        w >> 8 ^ self.alpha_inverse[(w & 0xff) as usize]
    }

    /// T(w): byte j goes through π(j mod 4), then M is applied.
    pub fn t(&self, w: u64) -> u64 {
        combine(&self.columns, w)
    }

    /// The word that T takes to q.
    pub fn t_inverse(&self, q: u64) -> u64 {
        let mut bytes = combine(&self.columns_inverse, q).to_le_bytes();
        for (j, byte) in bytes.iter_mut().enumerate() {
            *byte = self.pi_inverse[j % 4][usize::from(*byte)];
        }
        u64::from_le_bytes(bytes)
    }
}

impl Default for Tables {
    fn default() -> Tables {
        Tables::new()
    }
}

/// The sum of the columns that the bytes of w choose.
fn combine(columns: &[[u64; 256]; 8], w: u64) -> u64 {
    let bytes = w.to_le_bytes();
    (0..8).fold(0, |sum, j| sum ^ columns[j][usize::from(bytes[j])])
}
