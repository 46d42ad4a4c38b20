//! Plain PBM files.

/// A bit for each pixel, line by line.
pub struct Pbm {
    pub width: usize,
    pub bits: Vec<u8>,
}

impl Pbm {
    /// Reads a plain PBM without comments whose bits stand apart.
    pub fn parse(file: &[u8]) -> Result<Pbm, String> {
        let text = String::from_utf8_lossy(file);
        let mut words = text.split_ascii_whitespace();
        if words.next() != Some("P1") {
            return Err("no plain PBM".to_string());
        }
        let mut number = || words.next().and_then(|word| word.parse::<usize>().ok());
        let (Some(width), Some(height)) = (number(), number()) else {
            return Err("a PBM that is cut off".to_string());
        };
        let bit = |word: &str| word.parse().ok().filter(|bit| *bit <= 1).ok_or("no bit in a PBM");
        let bits = words.map(bit).collect::<Result<Vec<u8>, _>>()?;
        if bits.len() != width * height {
            return Err(format!("{} bits for {width} by {height} pixels", bits.len()));
        }
        Ok(Pbm { width, bits })
    }

    pub fn bytes(&self) -> Vec<u8> {
        let mut text = format!("P1\n{} {}\n", self.width, self.bits.len() / self.width);
        for line in self.bits.chunks(self.width) {
            let words: Vec<&str> = line.iter().map(|bit| ["0", "1"][usize::from(*bit)]).collect();
            text += &words.join(" ");
            text.push('\n');
        }
        text.into_bytes()
    }
}
