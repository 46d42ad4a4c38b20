//! Hold-and-modify as programs show it.

/// Where programs differ: from what a line starts, and what becomes of the low bits of a changed part.
pub struct Rule {
    pub name: &'static str,
    /// A line starts from the palette's first colour, and not from black.
    border: bool,
    /// The low bits stay as they were; else they repeat the new high ones.
    keeps: bool,
}

/// 003 and the ask have it so, and Pike.
pub const ASK: Rule = Rule { name: "ask", border: false, keeps: false };
pub const NETPBM: Rule = Rule { name: "netpbm", border: false, keeps: true };
/// GrafX2 too.
pub const FFMPEG: Rule = Rule { name: "ffmpeg", border: true, keeps: false };
/// TwelveMonkeys.
pub const JAVA: Rule = Rule { name: "java", border: true, keeps: true };

/// Those that differ from the ask.
pub const OTHERS: [Rule; 3] = [NETPBM, FFMPEG, JAVA];

impl Rule {
    /// The pixels of these colour numbers of 6 or 8 planes, three bytes each.
    pub fn pixels(&self, planes: u8, palette: &[u8], width: usize, numbers: &[u8]) -> Vec<u8> {
        let entry = |n: u8| palette.chunks_exact(3).nth(n.into()).map_or([0; 3], |c| [c[0], c[1], c[2]]);
        let (bits, low) = (planes - 2, 10 - planes);
        let mut pixels = Vec::new();
        for line in numbers.chunks(width) {
            let mut last = if self.border { entry(0) } else { [0; 3] };
            for number in line {
                let value = number & ((1 << bits) - 1);
                match number >> bits {
                    0 => last = entry(value),
                    code => {
                        let part = &mut last[[2, 0, 1][usize::from(code) - 1]];
                        let kept = *part & ((1 << low) - 1);
                        *part = value << low | if self.keeps { kept } else { value >> (bits - low) };
                    }
                }
                pixels.extend(last);
            }
        }
        pixels
    }
}
