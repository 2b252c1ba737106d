//! The colours of the rows.

/// Colours for rows of budgets. Any two differ clearly, also for people who don't see red, green or
/// blue, and neighbours more so: the tests measure it.
pub const COLOURS: [&str; 24] = [
    "#0072b2", "#d55e00", "#009e73", "#cc79a7", "#e69f00", "#4b0f87", "#69000f", "#b4c378",
    "#c34bff", "#e11e3c", "#5a1e69", "#3c00a5", "#5ad2a5", "#ff1ed2", "#c3a54b", "#783c00",
    "#9600ff", "#87a5ff", "#ff4b78", "#a51e96", "#f0a5e1", "#693cc3", "#5a783c", "#874b78",
];
/// The colour of thread 0, which has no budget.
pub const NO_BUDGET: &str = "#444444";
/// The colour of idle.
pub const IDLE: &str = "#8a8f98";

#[cfg(test)]
mod tests {
    use super::*;

    type Colour = [f64; 3];
    type Matrix = [[f64; 3]; 3];

    /// What is seen of linear red, green and blue: by most people, and without one kind of cones
    /// (Machado, Oliveira and Fernandes 2009, severity 1).
    const VISIONS: [(&str, Matrix); 4] = [
        (
            "normal",
            [[1.0, 0.0, 0.0], [0.0, 1.0, 0.0], [0.0, 0.0, 1.0]],
        ),
        (
            "protanopia",
            [
                [0.152286, 1.052583, -0.204868],
                [0.114503, 0.786281, 0.099216],
                [-0.003882, -0.048116, 1.051998],
            ],
        ),
        (
            "deuteranopia",
            [
                [0.367322, 0.860646, -0.227968],
                [0.280085, 0.672501, 0.047413],
                [-0.011820, 0.042940, 0.968881],
            ],
        ),
        (
            "tritanopia",
            [
                [1.255528, -0.076749, -0.178779],
                [-0.078411, 0.930809, 0.147602],
                [0.004733, 0.691367, 0.303900],
            ],
        ),
    ];

    /// Linear light to CIE XYZ, each by the white point's.
    const XYZ: Matrix = [
        [0.4124 / 0.95047, 0.3576 / 0.95047, 0.1805 / 0.95047],
        [0.2126, 0.7152, 0.0722],
        [0.0193 / 1.08883, 0.1192 / 1.08883, 0.9505 / 1.08883],
    ];

    fn times(matrix: &Matrix, colour: Colour) -> Colour {
        matrix.map(|row| row.iter().zip(colour).map(|(a, b)| a * b).sum())
    }

    /// The red, green and blue of a colour, as linear light.
    fn linear(colour: &str) -> Colour {
        std::array::from_fn(|place| {
            let digits = &colour[1 + 2 * place..][..2];
            let value = f64::from(u8::from_str_radix(digits, 16).expect("two digits")) / 255.0;
            if value <= 0.04045 {
                value / 12.92
            } else {
                ((value + 0.055) / 1.055).powf(2.4)
            }
        })
    }

    /// A colour as a vision sees it, in CIE Lab.
    fn lab(colour: &str, vision: &Matrix) -> Colour {
        let light = times(vision, linear(colour)).map(|value| value.clamp(0.0, 1.0));
        let [x, y, z] = times(&XYZ, light).map(|value| match value {
            value if value > 0.008856 => value.cbrt(),
            value => 7.787 * value + 16.0 / 116.0,
        });
        [116.0 * y - 16.0, 500.0 * (x - y), 200.0 * (y - z)]
    }

    fn distance(a: &str, b: &str, vision: &Matrix) -> f64 {
        let (a, b) = (lab(a, vision), lab(b, vision));
        let squares = a.iter().zip(b).map(|(a, b)| (a - b) * (a - b));
        squares.sum::<f64>().sqrt()
    }

    /// A distance of about 2 can just be seen side by side.
    #[test]
    fn any_two_differ() {
        for (name, vision) in &VISIONS {
            for (place, colour) in COLOURS.iter().enumerate() {
                for (before, other) in COLOURS[..place].iter().enumerate() {
                    let apart = distance(colour, other, vision);
                    let least = if place - before == 1 { 17.0 } else { 15.0 };
                    assert!(
                        apart > least,
                        "{name}: {colour} and {other} are {apart} apart"
                    );
                }
            }
        }
    }

    /// Bars and cells stand out from the white behind them.
    #[test]
    fn none_is_pale() {
        for (name, vision) in &VISIONS {
            for colour in COLOURS.iter().chain([&NO_BUDGET, &IDLE]) {
                let lightness = lab(colour, vision)[0];
                assert!(lightness < 80.0, "{name}: {colour} has {lightness} of 100");
            }
        }
    }
}
