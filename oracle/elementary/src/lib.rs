//! Document 01's elementary functions, written from its text: 'Elementary functions, in both programs'.
//! Where document 01 gives ln and ln_gamma no value they have the values of docs/DECISIONS.md.

/// "below −700 is 0.0; else t = x/1024, s = 1, for k = 18 down to 1 s = 1 + (t × s)/k, then s × s ten times"
pub fn exp(x: f64) -> f64 {
    if x < -700.0 {
        return 0.0;
    }
    let t = x / 1024.0;
    let mut s = 1.0;
    for k in (1..=18).rev() {
        s = 1.0 + (t * s) / f64::from(k);
    }
    for _ in 0..10 {
        s = s * s;
    }
    s
}

/// "scale m by 2 into 1 ≤ m < 2, k counting halvings less doublings, z = (m − 1)/(m + 1), u = z × z, s = 1/35, for
/// j = 33, 31 .. 1 s = 1/j + u × s; result k × 0.6931471805599453 + 2 × (z × s), and ln 0 is minus infinity"
pub fn ln(y: f64) -> f64 {
    if y == 0.0 {
        return f64::NEG_INFINITY;
    }
    if y.is_nan() || y < 0.0 {
        return f64::NAN;
    }
    if y.is_infinite() {
        return f64::INFINITY;
    }
    let mut m = y;
    let mut k = 0i32;
    while m >= 2.0 {
        m /= 2.0;
        k += 1;
    }
    while m < 1.0 {
        m *= 2.0;
        k -= 1;
    }
    let z = (m - 1.0) / (m + 1.0);
    let u = z * z;
    let mut s = 1.0 / 35.0;
    for j in (1..=33).rev().step_by(2) {
        s = 1.0 / f64::from(j) + u * s;
    }
    f64::from(k) * 0.6931471805599453 + 2.0 * (z * s)
}

/// "log10 is ln × 0.4342944819032518"
pub fn log10(x: f64) -> f64 {
    ln(x) * 0.4342944819032518
}

/// "10 to x is exp(x × 2.302585092994046)"
pub fn ten_to(x: f64) -> f64 {
    exp(x * 2.302585092994046)
}

/// "c = 0, while x < 16 add ln x to c and 1 to x; r = 1/x, v = r × r, a = 1/1260 − v/1680, b = 1/360 − v × a,
/// d = 1/12 − v × b; ((((x − 0.5) × ln x − x) + 0.91893853320467274178) + r × d) − c"
#[allow(clippy::excessive_precision)]
pub fn ln_gamma(x: f64) -> f64 {
    if x == 0.0 {
        return f64::INFINITY;
    }
    if x.is_nan() || x < 0.0 {
        return f64::NAN;
    }
    if x.is_infinite() {
        return f64::INFINITY;
    }
    let mut x = x;
    let mut c = 0.0;
    while x < 16.0 {
        c += ln(x);
        x += 1.0;
    }
    let r = 1.0 / x;
    let v = r * r;
    let a = 1.0 / 1260.0 - v / 1680.0;
    let b = 1.0 / 360.0 - v * a;
    let d = 1.0 / 12.0 - v * b;
    ((((x - 0.5) * ln(x) - x) + 0.91893853320467274178) + r * d) - c
}
