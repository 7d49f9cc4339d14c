//! Where the stops of a sweep lie: on few rays, about the axes, at the ends of the range, or in
//! directions as near to each other as whole numbers allow.

use crate::random::Random;
use crate::refusal::MOST_COORDINATE;
use crate::sheet::Sheet;

/// Seen from the first depot.
type Point = (i64, i64);

const END: i64 = MOST_COORDINATE as i64;

pub fn lay_points(sheet: &mut Sheet, random: &mut Random) {
    let depots = sheet.depots();
    let depot = match random.below(4) {
        0 => (0, 0),
        1 => (random.pick(&[-END, END]), random.pick(&[-END, END])),
        2 => (random.pick(&[-END, 0, END]), coordinate(random, END)),
        _ => (coordinate(random, 50), coordinate(random, 50)),
    };
    let style = random.below(6);
    let base: Vec<Point> = (0..3).map(|_| ray(style, random)).collect();
    let mut last = base[0];
    for (k, row) in sheet.rows.iter_mut().enumerate() {
        let seen = match style {
            _ if k < depots => (coordinate(random, 3), coordinate(random, 3)),
            0 => (coordinate(random, 2), coordinate(random, 2)),
            1..=3 => stretched(random.pick(&base), random),
            4 => near(last, random),
            _ => (
                random.pick(&[-2 * END, -END, 0, END, 2 * END]),
                random.pick(&[-2 * END, 0, 1, -1]),
            ),
        };
        let (dx, dy) = if k == 0 { (0, 0) } else { seen };
        if k >= depots {
            last = if random.one_in(3) { base[1] } else { seen };
        }
        (row.x, row.y) = (within(depot.0, dx), within(depot.1, dy));
    }
}

/// So far from a coordinate, to the other side where the range asks for that.
fn within(from: i64, by: i64) -> i32 {
    let by = if (from + by).abs() > END { -by } else { by };
    (from + by).clamp(-END, END) as i32
}

fn coordinate(random: &mut Random, reach: i64) -> i64 {
    random.below(2 * reach as usize + 1) as i64 - reach
}

/// A direction: a small one, along an axis or beside it, or far out.
fn ray(style: usize, random: &mut Random) -> Point {
    match style {
        1 => (coordinate(random, 3), coordinate(random, 3)),
        2 => {
            let (far, beside) = (random.pick(&[1, -1]) * END, random.pick(&[0, 0, 1, -1]));
            random.pick(&[(far, beside), (beside, far)])
        }
        _ => {
            let reach = random.pick(&[1000, END, 2 * END]);
            (coordinate(random, reach), coordinate(random, reach))
        }
    }
}

/// The same direction at another length, or its opposite.
fn stretched((x, y): Point, random: &mut Random) -> Point {
    let divisor = gcd(x.abs(), y.abs()).max(1);
    let (x, y) = (x / divisor, y / divisor);
    let most = (END / x.abs().max(y.abs()).max(1)).clamp(1, END);
    let by = match random.below(4) {
        0 => 1,
        1 => 1 + random.below(3.min(most as usize)) as i64,
        _ => 1 + random.below(most as usize) as i64,
    };
    let by = if random.one_in(8) { -by } else { by };
    (x * by, y * by)
}

/// A direction whose cross product with this one is 1 or -1, if it has one.
fn near((x, y): Point, random: &mut Random) -> Point {
    let divisor = gcd(x.abs(), y.abs());
    if divisor == 0 {
        return (coordinate(random, END), coordinate(random, END));
    }
    let (x, y) = (x / divisor, y / divisor);
    let (p, q) = bezout(x, y);
    // x * p + y * q = 1, so (-q, p) has the cross product 1 with (x, y), and so have those that
    // differ from it by a multiple of (x, y).
    let (p, q) = if random.one_in(2) { (p, q) } else { (-p, -q) };
    let by = random.pick(&[0, 0, 1, -1]);
    let (nx, ny) = (-q + by * x, p + by * y);
    if nx.abs() > END || ny.abs() > END {
        (-q, p)
    } else {
        (nx, ny)
    }
}

fn gcd(a: i64, b: i64) -> i64 {
    if b == 0 {
        a
    } else {
        gcd(b, a % b)
    }
}

/// Two numbers whose products with these sum to 1, for numbers that have no common divisor.
fn bezout(a: i64, b: i64) -> Point {
    if b == 0 {
        return (a.signum(), 0);
    }
    let (p, q) = bezout(b, a % b);
    (q, p - a / b * q)
}
