//! A picture as a reader tells it, and its pixels as programs show them.

use crate::pbm::Pbm;
use crate::ppm::Ppm;
use crate::rule::{Rule, NETPBM};

/// The flag of CAMG for hold-and-modify.
const HAM: u32 = 0x800;

/// The first picture of a file; `refused` is the number of the rows, or 0.
pub struct Picture {
    pub refused: usize,
    pub width: usize,
    pub height: usize,
    pub planes: u8,
    pub held: bool,
    pub palette: Vec<u8>,
    pub numbers: Vec<u8>,
    /// Red, green, blue of each pixel, or what they are refused with.
    pub colours: Result<Vec<u8>, usize>,
    /// Which pixels show, or what that is refused with.
    pub shape: Result<Vec<u8>, usize>,
}

impl Picture {
    fn refused(number: usize) -> Picture {
        Picture {
            refused: number,
            width: 0,
            height: 0,
            planes: 0,
            held: false,
            palette: Vec::new(),
            numbers: Vec::new(),
            colours: Err(number),
            shape: Err(number),
        }
    }

    /// Whether netpbm's picture has these pixels; without rows, whether it has
    /// the palette's colours.
    pub fn shown_as(&self, shown: &Ppm) -> Result<(), String> {
        if self.refused != 0 {
            let colours = self.palette.len() / 3;
            return Ppm { width: colours, height: 1, pixels: self.palette.clone() }.same_as(shown);
        }
        self.by_rule(&NETPBM)?.same_as(shown)
    }

    /// The colours that the reader tells.
    pub fn told(&self) -> Result<Ppm, String> {
        let told = self.colours.as_ref().map_err(|number| format!("colours are refused with {number}"))?;
        Ok(self.ppm(told.clone()))
    }

    /// The pixels as a program shows them: those that the reader tells, by hold-and-modify those of the
    /// program's rule.
    pub fn by_rule(&self, rule: &Rule) -> Result<Ppm, String> {
        let told = self.told()?;
        if !self.held {
            return Ok(told);
        }
        Ok(self.ppm(rule.pixels(self.planes, &self.palette, self.width, &self.numbers)))
    }

    /// Whether it has the shape that a program was handed, or all pixels show if there is none.
    pub fn shaped_as(&self, known: Option<&Pbm>) -> Result<(), String> {
        let all = vec![1; self.numbers.len()];
        let known = known.map_or(&all, |known| &known.bits);
        match &self.shape {
            Ok(shape) if shape == known => Ok(()),
            Err(number) if *number == self.refused => Ok(()),
            Err(number) => Err(format!("the shape is refused with {number}")),
            Ok(_) => Err("another shape".to_string()),
        }
    }

    fn ppm(&self, pixels: Vec<u8>) -> Ppm {
        Ppm { width: self.width, height: self.height, pixels }
    }
}

/// What the library tells of a file's first picture.
pub fn by_library(file: &[u8]) -> Picture {
    let header = match florinhado::header(file, 0) {
        Ok(header) => header.value,
        Err(refused) => return Picture::refused(refused.number),
    };
    let (width, height) = (usize::from(header.width), usize::from(header.height));
    let palette = florinhado::palette(file, 0, b"").map_or(Vec::new(), |told| told.value.to_vec());
    let held = florinhado::view_mode(file, 0).is_ok_and(|told| told.value & HAM != 0);
    let mut numbers = vec![0; width * height];
    let frame = florinhado::frame(file, 0, &mut numbers);
    let refused = frame.map_or_else(|refused| refused.number, |_| 0);
    let mut colours = vec![0; 3 * width * height];
    let told = florinhado::colour_frame(file, 0, b"", &mut colours);
    let colours = told.map(|_| colours).map_err(|refused| refused.number);
    let mut shape = vec![0; width * height];
    let told = florinhado::shape_frame(file, 0, &mut vec![0; width * height], &mut shape);
    let shape = told.map(|_| shape).map_err(|refused| refused.number);
    Picture { refused, width, height, planes: header.planes, held, palette, numbers, colours, shape }
}

/// What the second reader tells of it.
pub fn by_second(file: &[u8]) -> Picture {
    let told = match second::properties(file, 0) {
        Ok(told) => told,
        Err(refused) => return Picture::refused(refused.number as usize),
    };
    let number = |refused: second::Refused| refused.number as usize;
    let (width, height) = (usize::from(told.header.width), usize::from(told.header.height));
    let palette = second::palette(file, 0, b"").map_or(Vec::new(), <[u8]>::to_vec);
    let held = told.view_modes.value.is_some_and(|modes| modes & HAM != 0);
    let frame = second::frame(file, 0, width * height).map_err(number);
    let refused = frame.as_ref().map_or_else(|number| *number, |_| 0);
    let numbers = frame.map_or(Vec::new(), |frame| frame.colours);
    let colours = second::colour_frame(file, 0, b"", 3 * width * height);
    let colours = colours.map(|frame| frame.colours).map_err(number);
    let lent = second::Lent { colours: width * height, shape: width * height };
    let shape = second::shape_frame(file, 0, lent).map(|frame| frame.shape).map_err(number);
    Picture { refused, width, height, planes: told.header.planes, held, palette, numbers, colours, shape }
}
