//! PPM files of 255 shades.

/// Pixels, three bytes each, line by line.
pub struct Ppm {
    pub width: usize,
    pub height: usize,
    pub pixels: Vec<u8>,
}

impl Ppm {
    /// Reads a raw PPM without comments.
    pub fn parse(file: &[u8]) -> Result<Ppm, String> {
        let mut parts = file.splitn(4, u8::is_ascii_whitespace);
        let mut part = || parts.next().ok_or("a PPM that is cut off");
        let text = |part: &[u8]| String::from_utf8_lossy(part).into_owned();
        let number = |part: &[u8]| text(part).parse::<usize>().map_err(|_| "no number in a PPM");
        if part()? != b"P6" {
            return Err("no raw PPM".to_string());
        }
        let (width, height) = (number(part()?)?, number(part()?)?);
        let pixels = part()?.strip_prefix(b"255\n").ok_or("not 255 shades")?;
        if pixels.len() != 3 * width * height {
            return Err(format!("{} bytes for {width} by {height} pixels", pixels.len()));
        }
        Ok(Ppm { width, height, pixels: pixels.to_vec() })
    }

    /// Fails at the first pixel that differs.
    pub fn same_as(&self, shown: &Ppm) -> Result<(), String> {
        if (self.width, self.height) != (shown.width, shown.height) {
            let Ppm { width, height, .. } = self;
            return Err(format!("{width} by {height}, the program has {} by {}", shown.width, shown.height));
        }
        let differ = (0..self.pixels.len()).find(|n| self.pixels[*n] != shown.pixels[*n]);
        differ.map_or(Ok(()), |n| Err(format!("pixel {}: {} is {}", n / 3, self.pixels[n], shown.pixels[n])))
    }

    pub fn bytes(&self) -> Vec<u8> {
        let mut file = format!("P6\n{} {}\n255\n", self.width, self.height).into_bytes();
        file.extend(&self.pixels);
        file
    }
}
