//! "Float rule, by bits", and the two ways between the widths.

/// "Float32 holds it if f = 0 and e is 0 or 2047, or if 874 <= e <= 1150 and 2^k divides 2^52 + f, where k = 29 from
/// e = 897 up and 926 - e below. Every NaN keeps its width."
pub fn float32_holds(bits: u64) -> bool {
    let e = bits >> 52 & 2047;
    let f = bits & ((1 << 52) - 1);
    if f == 0 && (e == 0 || e == 2047) {
        return true;
    }
    if !(874..=1150).contains(&e) {
        return false;
    }
    let k = if e >= 897 { 29 } else { 926 - e };
    ((1_u64 << 52) + f).is_multiple_of(1 << k)
}

/// "e is 2047 and f is not 0", in 64 bits.
pub fn is_nan64(bits: u64) -> bool {
    bits << 1 > 0xFFE0_0000_0000_0000
}

/// The same in 32 bits.
pub fn is_nan32(bits: u32) -> bool {
    bits << 1 > 0xFF00_0000
}

/// "Float32 widened (a NaN keeps its sign, its fraction moves up 29 bits)", all by bits.
pub fn widen(bits: u32) -> u64 {
    let sign = u64::from(bits >> 31) << 63;
    let e = u64::from(bits >> 23 & 255);
    let f = u64::from(bits & 0x7F_FFFF);
    match (e, f) {
        (0, 0) => sign,
        (0, _) => {
            // A subnormal number f * 2^-149: its highest bit h becomes the leading one.
            let h = 63 - f.leading_zeros() as u64;
            sign | (h + 874) << 52 | (f << (52 - h) & ((1 << 52) - 1))
        }
        (255, _) => sign | 2047 << 52 | f << 29,
        _ => sign | (e + 896) << 52 | f << 29,
    }
}

/// The Float32 that widens to these bits, where the float rule allows one.
pub fn narrow(bits: u64) -> Option<u32> {
    if !float32_holds(bits) {
        return None;
    }
    let sign = (bits >> 63 << 31) as u32;
    let e = bits >> 52 & 2047;
    let f = bits & ((1 << 52) - 1);
    Some(match e {
        0 => sign,
        2047 => sign | 255 << 23,
        897.. => sign | ((e - 896) as u32) << 23 | (f >> 29) as u32,
        _ => sign | (((1 << 52) + f) >> (926 - e)) as u32,
    })
}
