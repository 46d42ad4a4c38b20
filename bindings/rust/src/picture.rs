//! A picture by its row of the table.

use crate::answer::{answer, Refused};
use crate::colours::{body_colour_frame, body_colour_line, palette_triples};
use crate::lines::{ColourLines, Lines, Read, ShapedLines};
use crate::properties::{bmhd, Destination, Header, HotSpot, Origin, Property};
use crate::rows::{body_frame, body_line};
use crate::shapes::{body_shape_frame, body_shape_line, Shaped};

/// The numbers of a picture in the table.
pub(crate) type Row = [usize; 30];

/// The most pixels that a byte of a BODY stands for: a repeat of 128 bytes has two.
const PIXELS_OF_A_BYTE: usize = 512;

/// The properties in the table, by their numbers there.
#[derive(Clone, Copy)]
enum Name {
    Bmhd,
    Cmap,
    Grab,
    Dest,
    Sprt,
    Camg,
}

/// One picture of a [`File`](crate::File). What its functions are refused with
/// is what the functions by number are refused with, 20 and the structure's
/// numbers excepted: [refusals of a picture](crate#refusals-of-a-picture).
///
/// ```
/// let file = florinhado::File::new(include_bytes!("../../../samples/two_levels.iff"))?;
/// let picture = file.picture(1).unwrap();
/// let colours = picture.palette(b"")?.value;
/// let shown: Vec<&[u8]> = picture.frame()?.iter().map(|n| &colours[3 * usize::from(*n)..][..3]).collect();
/// assert_eq!(shown[4..8], [[0, 0, 0], [0, 255, 0], [0, 255, 0], [255, 0, 0]]);
/// # Ok::<(), florinhado::Refused>(())
/// ```
#[derive(Clone, Copy, Debug, PartialEq, Eq)]
pub struct Picture<'a> {
    file: &'a [u8],
    row: Row,
}

impl<'a> Picture<'a> {
    pub(crate) fn new(file: &'a [u8], row: Row) -> Picture<'a> {
        Picture { file, row }
    }

    /// What every other function on this picture is refused with: 21, 22, 23,
    /// 41, 42, 43 or 24; none if it can be read.
    ///
    /// ```
    /// let file = florinhado::File::new(include_bytes!("../../../samples/headers.iff"))?;
    /// let numbers = file.pictures().map(|picture| picture.refusal().map(|refused| refused.number));
    /// assert_eq!(numbers.collect::<Vec<_>>(), [Some(41), Some(42), Some(43), Some(24), Some(41), None]);
    /// # Ok::<(), florinhado::Refused>(())
    /// ```
    pub fn refusal(&self) -> Option<Refused> {
        self.answered(()).err()
    }

    /// Where its FORM's header stands in the file.
    ///
    /// ```
    /// let file = florinhado::File::new(include_bytes!("../../../samples/headers.iff"))?;
    /// assert_eq!(file.picture(1).unwrap().place(), 68);
    /// # Ok::<(), florinhado::Refused>(())
    /// ```
    pub fn place(&self) -> usize {
        self.row[1]
    }

    /// Its FORM's type.
    ///
    /// ```
    /// let file = florinhado::File::new(b"FORM\0\0\0\x04ILBM")?;
    /// assert_eq!(&file.picture(0).unwrap().form_type(), b"ILBM");
    /// # Ok::<(), florinhado::Refused>(())
    /// ```
    pub fn form_type(&self) -> [u8; 4] {
        (self.row[2] as u32).to_be_bytes()
    }

    /// The BMHD that counts.
    ///
    /// ```
    /// use florinhado::Origin;
    /// let file = florinhado::File::new(include_bytes!("../../../samples/two_levels.iff"))?;
    /// let header = file.picture(0).unwrap().header()?;
    /// assert_eq!((header.value.width, header.value.height), (8, 2));
    /// assert_eq!(header.origin, Origin::Shared(12));
    /// # Ok::<(), florinhado::Refused>(())
    /// ```
    pub fn header(&self) -> Result<Property<Header>, Refused> {
        self.answered(())?;
        let value = bmhd(self.data(Name::Bmhd))?;
        Ok(Property { value, origin: self.origin(Name::Bmhd) })
    }

    /// The palette, three bytes a colour: the CMAP that counts, as a part of the
    /// file, or the default where none counts.
    ///
    /// ```
    /// let file = florinhado::File::new(include_bytes!("../../../samples/headers.iff"))?;
    /// let colours = file.picture(5).unwrap().palette(&[0, 0, 0, 255, 255, 255])?;
    /// assert_eq!((colours.value.len(), colours.origin), (6, florinhado::Origin::Absent));
    /// # Ok::<(), florinhado::Refused>(())
    /// ```
    pub fn palette<'b>(&self, default: &'b [u8]) -> Result<Property<&'b [u8]>, Refused>
    where
        'a: 'b,
    {
        let origin = self.origin(Name::Cmap);
        let value = if origin == Origin::Absent { default } else { self.data(Name::Cmap) };
        self.answered(Property { value, origin })
    }

    /// The GRAB that counts.
    ///
    /// ```
    /// let file = florinhado::File::new(include_bytes!("../../../samples/picture.iff"))?;
    /// assert_eq!(file.picture(0).unwrap().grab()?.origin, florinhado::Origin::Absent);
    /// # Ok::<(), florinhado::Refused>(())
    /// ```
    pub fn grab(&self) -> Result<Property<HotSpot>, Refused> {
        let [a, b, c, d] = self.bytes(Name::Grab);
        let value = HotSpot { x: i16::from_be_bytes([a, b]), y: i16::from_be_bytes([c, d]) };
        self.answered(Property { value, origin: self.origin(Name::Grab) })
    }

    /// The DEST that counts.
    ///
    /// ```
    /// let file = florinhado::File::new(include_bytes!("../../../samples/picture.iff"))?;
    /// assert_eq!(file.picture(0).unwrap().destination()?.value.depth, 0);
    /// # Ok::<(), florinhado::Refused>(())
    /// ```
    pub fn destination(&self) -> Result<Property<Destination>, Refused> {
        let [depth, pad1, a, b, c, d, e, f] = self.bytes(Name::Dest);
        let [plane_pick, plane_on_off, plane_mask] = [[a, b], [c, d], [e, f]].map(u16::from_be_bytes);
        let value = Destination { depth, pad1, plane_pick, plane_on_off, plane_mask };
        self.answered(Property { value, origin: self.origin(Name::Dest) })
    }

    /// The sprite precedence of the SPRT that counts.
    ///
    /// ```
    /// let file = florinhado::File::new(include_bytes!("../../../samples/picture.iff"))?;
    /// assert_eq!(file.picture(0).unwrap().sprite()?.value, 0);
    /// # Ok::<(), florinhado::Refused>(())
    /// ```
    pub fn sprite(&self) -> Result<Property<u16>, Refused> {
        let value = u16::from_be_bytes(self.bytes(Name::Sprt));
        self.answered(Property { value, origin: self.origin(Name::Sprt) })
    }

    /// The view modes of the CAMG that counts.
    ///
    /// ```
    /// let file = florinhado::File::new(include_bytes!("../../../samples/picture.iff"))?;
    /// assert_eq!(file.picture(0).unwrap().view_mode()?.value, 0);
    /// # Ok::<(), florinhado::Refused>(())
    /// ```
    pub fn view_mode(&self) -> Result<Property<u32>, Refused> {
        let value = u32::from_be_bytes(self.bytes(Name::Camg));
        self.answered(Property { value, origin: self.origin(Name::Camg) })
    }

    /// The data of the BODY, as a part of the file; 25 if there is none.
    ///
    /// ```
    /// let file = florinhado::File::new(include_bytes!("../../../samples/two_levels.iff"))?;
    /// assert_eq!(file.picture(1).unwrap().body()?, [1, 0, 6, 0, 254, 0, 3, 0]);
    /// # Ok::<(), florinhado::Refused>(())
    /// ```
    pub fn body(&self) -> Result<&'a [u8], Refused> {
        self.answered(())?;
        let [there, from, to] = [self.row[27], self.row[28], self.row[29]];
        answer(if there == 0 { 25 } else { 0 }, 0, &self.file[from..to])
    }

    /// The colour numbers of all scan lines, line by line, a byte for each pixel.
    ///
    /// ```
    /// let file = florinhado::File::new(include_bytes!("../../../samples/headers.iff"))?;
    /// assert_eq!(file.picture(5).unwrap().frame()?, [1, 2, 3, 2, 1, 0]);
    /// assert_eq!(file.picture(4).unwrap().frame().unwrap_err().number, 41);
    /// # Ok::<(), florinhado::Refused>(())
    /// ```
    pub fn frame(&self) -> Result<Vec<u8>, Refused> {
        let (header, body) = self.read()?;
        let Some(pixels) = pixels(&header, body) else {
            return Ok(self.lines().collect::<Result<Vec<_>, _>>()?.concat());
        };
        let mut frame = vec![0; pixels];
        body_frame(body, &header, &mut frame)?;
        Ok(frame)
    }

    /// Writes the colour numbers of all scan lines to `frame`, which has a byte
    /// for each pixel, line by line, and gives how many bytes of the BODY are
    /// left over. A refusal changes nothing.
    ///
    /// ```
    /// let file = florinhado::File::new(include_bytes!("../../../samples/headers.iff"))?;
    /// let mut frame = [9; 6];
    /// assert_eq!(file.picture(5).unwrap().frame_into(&mut frame)?, 0);
    /// assert_eq!(frame, [1, 2, 3, 2, 1, 0]);
    /// assert_eq!(file.picture(5).unwrap().frame_into(&mut [0; 7]).unwrap_err().number, 28);
    /// # Ok::<(), florinhado::Refused>(())
    /// ```
    pub fn frame_into(&self, frame: &mut [u8]) -> Result<usize, Refused> {
        let (header, body) = self.read()?;
        body_frame(body, &header, frame)
    }

    /// The scan lines in turn; see [`Lines`].
    ///
    /// ```
    /// let file = florinhado::File::new(include_bytes!("../../../samples/headers.iff"))?;
    /// let lines: Result<Vec<_>, _> = file.picture(5).unwrap().lines().collect();
    /// assert_eq!(lines?, [[1, 2, 3], [2, 1, 0]]);
    /// # Ok::<(), florinhado::Refused>(())
    /// ```
    pub fn lines(&self) -> Lines<'a> {
        Lines::of(self.read())
    }

    /// Writes the colour numbers of the scan line at this place of the BODY to
    /// `row`, which has a byte for each pixel, and gives the place at which the
    /// next line starts. The first line starts at 0. A refusal changes nothing.
    ///
    /// ```
    /// let file = florinhado::File::new(include_bytes!("../../../samples/headers.iff"))?;
    /// let mut row = [9; 3];
    /// let next = file.picture(5).unwrap().line_into(0, &mut row)?;
    /// assert_eq!((row, next), ([1, 2, 3], 4));
    /// # Ok::<(), florinhado::Refused>(())
    /// ```
    pub fn line_into(&self, start: usize, row: &mut [u8]) -> Result<usize, Refused> {
        let (header, body) = self.read()?;
        body_line(body, &header, start, row)
    }

    /// The colour numbers of all scan lines with their shape, 1 for each pixel that
    /// shows and 0 for each that doesn't; 44 for masking 3, whose shape is not
    /// worked out.
    ///
    /// ```
    /// use florinhado::{write_with_shape, File, Header};
    /// let brush = Header { width: 2, height: 2, planes: 1, masking: 1, ..Header::default() };
    /// let mut bytes = [0; 64];
    /// let length = write_with_shape(&brush, b"", &[1, 1, 0, 1], &[1, 0, 1, 1], &mut bytes)?;
    /// let shaped = File::new(&bytes[..length])?.picture(0).unwrap().frame_with_shape()?;
    /// assert_eq!(shaped.colours, [1, 1, 0, 1]);
    /// assert_eq!(shaped.shape, [1, 0, 1, 1]);
    /// # Ok::<(), florinhado::Refused>(())
    /// ```
    pub fn frame_with_shape(&self) -> Result<Shaped, Refused> {
        let (header, body) = self.read()?;
        let Some(pixels) = pixels(&header, body) else {
            let lines = self.lines_with_shape().collect::<Result<Vec<_>, _>>()?;
            let (colours, shape): (Vec<_>, Vec<_>) =
                lines.into_iter().map(|line| (line.colours, line.shape)).unzip();
            return Ok(Shaped { colours: colours.concat(), shape: shape.concat() });
        };
        let mut frame = Shaped::room(pixels);
        body_shape_frame(body, &header, &mut frame.colours, &mut frame.shape)?;
        Ok(frame)
    }

    /// Writes the colour numbers of all scan lines to `frame` and their shape to
    /// `shape`, each with a byte for each pixel, and gives how many bytes of the
    /// BODY are left over. A refusal changes neither.
    ///
    /// ```
    /// let file = florinhado::File::new(include_bytes!("../../../samples/headers.iff"))?;
    /// let (mut frame, mut shape) = ([9; 6], [9; 6]);
    /// assert_eq!(file.picture(5).unwrap().frame_with_shape_into(&mut frame, &mut shape)?, 0);
    /// assert_eq!((frame, shape), ([1, 2, 3, 2, 1, 0], [1; 6]));
    /// # Ok::<(), florinhado::Refused>(())
    /// ```
    pub fn frame_with_shape_into(&self, frame: &mut [u8], shape: &mut [u8]) -> Result<usize, Refused> {
        let (header, body) = self.read()?;
        body_shape_frame(body, &header, frame, shape)
    }

    /// The scan lines with their shape in turn; see [`ShapedLines`].
    ///
    /// ```
    /// let file = florinhado::File::new(include_bytes!("../../../samples/headers.iff"))?;
    /// for line in file.picture(5).unwrap().lines_with_shape() {
    ///     assert_eq!(line?.shape, [1, 1, 1]);
    /// }
    /// # Ok::<(), florinhado::Refused>(())
    /// ```
    pub fn lines_with_shape(&self) -> ShapedLines<'a> {
        ShapedLines::of(self.read())
    }

    /// Writes the colour numbers of the scan line at this place of the BODY to
    /// `row` and its shape to `shape`, each with a byte for each pixel, and gives
    /// the place at which the next line starts. A refusal changes neither.
    ///
    /// ```
    /// let file = florinhado::File::new(include_bytes!("../../../samples/headers.iff"))?;
    /// let (mut row, mut shape) = ([9; 3], [9; 3]);
    /// let next = file.picture(5).unwrap().line_with_shape_into(4, &mut row, &mut shape)?;
    /// assert_eq!((row, shape, next), ([2, 1, 0], [1, 1, 1], 8));
    /// # Ok::<(), florinhado::Refused>(())
    /// ```
    pub fn line_with_shape_into(
        &self,
        start: usize,
        row: &mut [u8],
        shape: &mut [u8],
    ) -> Result<usize, Refused> {
        let (header, body) = self.read()?;
        body_shape_line(body, &header, start, row, shape)
    }

    /// All scan lines in [colours](crate#colours), line by line, three bytes for each
    /// pixel: red, green, blue. `default` is the palette where no CMAP counts; 46 for
    /// hold-and-modify with other than 6 or 8 planes.
    ///
    /// ```
    /// let file = florinhado::File::new(include_bytes!("../../../samples/colours.iff"))?;
    /// let held = file.picture(0).unwrap().colour_frame(b"")?;
    /// assert_eq!(held[..12], [170, 0, 0, 255, 128, 0, 255, 128, 255, 255, 17, 255]);
    /// let refused = file.picture(4).unwrap().colour_frame(b"").unwrap_err();
    /// assert_eq!(refused.to_string(), "refusal 46 at 0: CAMG bit 11, hold-and-modify, with other than 6 or 8 planes");
    /// # Ok::<(), florinhado::Refused>(())
    /// ```
    pub fn colour_frame(&self, default: &[u8]) -> Result<Vec<u8>, Refused> {
        let (header, body) = self.read()?;
        let Some(pixels) = pixels(&header, body) else {
            return Ok(self.colour_lines(default).collect::<Result<Vec<_>, _>>()?.concat());
        };
        let mut frame = vec![0; 3 * pixels];
        self.colour_frame_into(default, &mut frame)?;
        Ok(frame)
    }

    /// Writes all scan lines in colours to `frame`, which has three bytes for each
    /// pixel, and gives how many bytes of the BODY are left over. A refusal changes
    /// nothing.
    ///
    /// ```
    /// let file = florinhado::File::new(include_bytes!("../../../samples/colours.iff"))?;
    /// let mut frame = [9; 24];
    /// assert_eq!(file.picture(1).unwrap().colour_frame_into(b"", &mut frame)?, 0);
    /// assert_eq!(frame[3..9], [255, 0, 60, 255, 65, 60]);
    /// assert_eq!(file.picture(1).unwrap().colour_frame_into(b"", &mut [0; 8]).unwrap_err().number, 28);
    /// # Ok::<(), florinhado::Refused>(())
    /// ```
    pub fn colour_frame_into(&self, default: &[u8], frame: &mut [u8]) -> Result<usize, Refused> {
        let (header, body) = self.read()?;
        body_colour_frame(body, &header, self.view_mode()?.value, self.palette(default)?.value, frame)
    }

    /// The scan lines in colours in turn; see [`ColourLines`].
    ///
    /// ```
    /// let file = florinhado::File::new(include_bytes!("../../../samples/colours.iff"))?;
    /// for line in file.picture(0).unwrap().colour_lines(b"") {
    ///     println!("{:?}", line?);
    /// }
    /// # Ok::<(), florinhado::Refused>(())
    /// ```
    pub fn colour_lines<'b>(&self, default: &'b [u8]) -> ColourLines<'b>
    where
        'a: 'b,
    {
        // Of a picture that is refused neither is looked at.
        let view_mode = self.view_mode().map_or(0, |told| told.value);
        let palette = self.palette(default).map_or(default, |told| told.value);
        ColourLines::of(self.read(), view_mode, palette)
    }

    /// Writes the scan line at this place of the BODY in colours to `row`, which has
    /// three bytes for each pixel, and gives the place at which the next line starts.
    /// A refusal changes nothing.
    ///
    /// ```
    /// let file = florinhado::File::new(include_bytes!("../../../samples/colours.iff"))?;
    /// let mut row = [9; 12];
    /// let next = file.picture(3).unwrap().colour_line_into(12, b"", &mut row)?;
    /// assert_eq!((next, &row[..6]), (24, &[17, 34, 51, 0, 0, 0][..]));
    /// # Ok::<(), florinhado::Refused>(())
    /// ```
    pub fn colour_line_into(&self, start: usize, default: &[u8], row: &mut [u8]) -> Result<usize, Refused> {
        let (header, body) = self.read()?;
        body_colour_line(body, &header, self.view_mode()?.value, self.palette(default)?.value, start, row)
    }

    /// The palette, or the default where no CMAP counts, as 64 triples: of a
    /// half-bright picture entries 0 to 31 and their halves, of any other the first
    /// 64. An entry that isn't there whole is (0, 0, 0).
    ///
    /// ```
    /// let file = florinhado::File::new(include_bytes!("../../../samples/colours.iff"))?;
    /// let bright = file.picture(2).unwrap().triples(b"")?;
    /// assert_eq!((bright[2], bright[34]), ([0, 64, 255], [0, 32, 127]));
    /// # Ok::<(), florinhado::Refused>(())
    /// ```
    pub fn triples(&self, default: &[u8]) -> Result<[[u8; 3]; 64], Refused> {
        let palette = self.palette(default)?.value;
        Ok(palette_triples(palette, self.header()?.value.planes, self.view_mode()?.value))
    }

    /// The header and the BODY, or what the picture is refused with.
    fn read(&self) -> Read<'a> {
        Ok((self.header()?.value, self.body()?))
    }

    /// The value, unless the picture is refused.
    fn answered<T>(&self, value: T) -> Result<T, Refused> {
        answer(self.row[0], 0, value)
    }

    /// What the table has of a property: origin, the PROP's place, from, to.
    fn numbers(&self, name: Name) -> [usize; 4] {
        std::array::from_fn(|n| self.row[3 + 4 * name as usize + n])
    }

    fn origin(&self, name: Name) -> Origin {
        let [origin, shared, _, _] = self.numbers(name);
        Origin::of(origin, shared)
    }

    /// The data of a property; none if it is absent.
    fn data(&self, name: Name) -> &'a [u8] {
        let [_, _, from, to] = self.numbers(name);
        &self.file[from..to]
    }

    /// The data of a property of this size; zeros if it is absent.
    fn bytes<const SIZE: usize>(&self, name: Name) -> [u8; SIZE] {
        self.data(name).try_into().unwrap_or([0; SIZE])
    }
}

/// How many pixels a frame has; nothing if the BODY is too short for it, as no room is made for what can't
/// be filled.
fn pixels(header: &Header, body: &[u8]) -> Option<usize> {
    let pixels = usize::from(header.width) * usize::from(header.height);
    (pixels / PIXELS_OF_A_BYTE <= body.len()).then_some(pixels)
}
