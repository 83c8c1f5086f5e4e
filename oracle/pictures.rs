//! Pictures as functions of a place, which may lie outside of what is cut from them.

/// Noise: a number of its own for each place.
pub fn noise(x: i32, y: i32, salt: u64) -> u8 {
    let mut z = salt ^ (x as u32 as u64) << 32 ^ y as u32 as u64;
    z = (z ^ (z >> 30)).wrapping_mul(0xBF58_476D_1CE4_E5B9);
    z = (z ^ (z >> 27)).wrapping_mul(0x94D0_49BB_1331_11EB);
    (z >> 56) as u8
}

/// A smooth texture: noise at every `cell` samples, and straight lines between.
pub fn smooth(x: i32, y: i32, cell: i32, salt: u64) -> u8 {
    let (column, row) = (x.div_euclid(cell), y.div_euclid(cell));
    let (right, down) = (x.rem_euclid(cell), y.rem_euclid(cell));
    let corner = |i, j| i32::from(noise(column + i, row + j, salt));
    let across = |j| corner(0, j) * (cell - right) + corner(1, j) * right;
    ((across(0) * (cell - down) + across(1) * down) / (cell * cell)) as u8
}

/// A texture with fine detail.
pub fn textured(x: i32, y: i32) -> u8 {
    smooth(x, y, 7, 1) / 2 + smooth(x, y, 3, 2) / 3 + noise(x, y, 3) / 16
}

/// A comb of cells with dark walls, each floor of its own shade.
fn comb(x: i32, y: i32) -> i32 {
    let row = y.div_euclid(12);
    let x = x + 7 * (row & 1);
    let (across, down) = (x.rem_euclid(14) - 7, y.rem_euclid(12) - 6);
    let far = across * across + down * down;
    if far > 34 {
        return 70 + far / 4;
    }
    120 + i32::from(noise(x.div_euclid(14), row, 4)) / 4 - far
}

/// The comb with bees at a time: each walks its own way, and every picture has its own noise.
pub fn bees(x: i32, y: i32, time: i32) -> u8 {
    let mut shade = comb(x, y);
    for bee in 0..14 {
        let number = |what| i32::from(noise(bee, what, 5));
        let (step_x, step_y) = (number(0) % 15 - 7, number(1) % 11 - 5);
        let across = x - (number(2) * 176 / 256 + step_x * time);
        let down = y - (number(3) * 144 / 256 + step_y * time);
        if across * across + 3 * down * down < 90 {
            shade = if across.rem_euclid(5) < 2 { 40 } else { 150 + 4 * down };
        }
    }
    (shade + i32::from(noise(x, y, 6 + time as u64)) % 7 - 3).clamp(0, 255) as u8
}
