//! A plane with a margin, as the C reads it.

/// At least the three samples that taps and class windows reach past the plane; eight keep a row's start where vectors like it.
const MARGIN: usize = 8;

pub struct Padded {
    samples: Vec<u16>,
    pub stride: usize,
}

impl Padded {
    /// The margin repeats the plane's rim.
    pub fn new(plane: &[u16], width: usize, height: usize) -> Padded {
        let stride = width + 2 * MARGIN;
        let mut samples = Vec::with_capacity(stride * (height + 2 * MARGIN));
        for y in 0..height + 2 * MARGIN {
            let row = &plane[y.saturating_sub(MARGIN).min(height - 1) * width..][..width];
            samples.extend([row[0]; MARGIN]);
            samples.extend(row);
            samples.extend([row[width - 1]; MARGIN]);
        }
        Padded { samples, stride }
    }

    /// At the plane's first sample.
    pub fn first(&self) -> *const u16 {
        self.samples[MARGIN * self.stride + MARGIN..].as_ptr()
    }
}
