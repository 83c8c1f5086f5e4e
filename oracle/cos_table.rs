//! `cos_table`, which the original transform calls and which is in none of the original files.
//! The rule is its meaning: the entry for u, x by m = (2x + 1)u mod 32, from C[0..8].

// With the rule's digits; each is the double nearest.
#[allow(clippy::approx_constant, clippy::excessive_precision)]
const C: [f64; 9] = [
    1.0,
    0.98078528040323044913,
    0.92387953251128675613,
    0.83146961230254523708,
    0.70710678118654752440,
    0.55557023301960222474,
    0.38268343236508977173,
    0.19509032201612826785,
    0.0,
];

const fn entry(u: usize, x: usize) -> f64 {
    match (2 * x + 1) * u % 32 {
        m @ 0..=8 => C[m],
        m @ 9..=16 => -C[16 - m],
        m @ 17..=24 => -C[m - 16],
        m => C[32 - m],
    }
}

const fn table() -> [[f64; 8]; 8] {
    let mut table = [[0.0; 8]; 8];
    let mut k = 0;
    while k < 64 {
        table[k / 8][k % 8] = entry(k / 8, k % 8);
        k += 1;
    }
    table
}

static TABLE: [[f64; 8]; 8] = table();

pub fn cos_table() -> &'static [[f64; 8]; 8] {
    &TABLE
}
