//! Pictures that look natural enough: even ground, sharp edges, texture and noise.

use vectors::random::Random;

/// The largest magnitude of a sample. With it, level 0 of every wavelet stays within what FFmpeg's
/// prediction can divide exactly.
const LARGEST: f64 = 40.0;

/// A disc or a slab of even brightness with a sharp edge.
struct Shape {
    x: f64,
    y: f64,
    size: f64,
    lean: f64,
    round: bool,
    brightness: f64,
}

impl Shape {
    /// A shape somewhere in the unit square.
    fn random(random: &mut Random) -> Shape {
        Shape {
            x: unit(random),
            y: unit(random),
            size: 0.02 + 0.18 * unit(random),
            lean: 2.0 * unit(random) - 1.0,
            round: random.flag(),
            brightness: 30.0 * (unit(random) - 0.5),
        }
    }

    /// Whether a point lies in it.
    fn has(&self, x: f64, y: f64) -> bool {
        let (dx, dy) = (x - self.x, y - self.y);
        if self.round {
            dx * dx + dy * dy < self.size * self.size
        } else {
            (dx + self.lean * dy).abs() < self.size && dy.abs() < 2.0 * self.size
        }
    }
}

/// A number from 0 up to 1.
fn unit(random: &mut Random) -> f64 {
    random.range(0, (1 << 20) - 1) as f64 / (1 << 20) as f64
}

/// The samples of a picture of a seed.
pub fn samples(width: u32, height: u32, seed: u64) -> Vec<i64> {
    let mut random = Random::new(seed);
    let shapes: Vec<Shape> = (0..24).map(|_| Shape::random(&mut random)).collect();
    let scale = f64::from(width.max(height));
    let mut samples = Vec::new();
    for row in 0..height {
        for column in 0..width {
            let (x, y) = (f64::from(column) / scale, f64::from(row) / scale);
            // Noise is stronger on the right.
            let grain: f64 = (0..4).map(|_| unit(&mut random) - 0.5).sum();
            let inside = shapes.iter().filter(|shape| shape.has(x, y));
            let brightness = ground(x, y)
                + texture(x, y)
                + inside.map(|shape| shape.brightness).sum::<f64>()
                + grain * (1.0 + 4.0 * x);
            samples.push(brightness.clamp(-LARGEST, LARGEST).round() as i64);
        }
    }
    samples
}

/// Light that changes slowly.
fn ground(x: f64, y: f64) -> f64 {
    20.0 * (2.1 * x + 0.7).sin() * (3.3 * y + 0.2).cos() + 12.0 * (x - y)
}

/// Stripes whose width and strength change over the picture.
fn texture(x: f64, y: f64) -> f64 {
    let strength = (9.0 * x).sin() * (7.0 * y).cos();
    let phase = 420.0 * x * (1.0 + 0.4 * y) + 160.0 * y;
    if strength > 0.2 {
        6.0 * strength * phase.sin()
    } else {
        0.0
    }
}
