//! ilbm_write.

use crate::borrowed::{numbers, refused, same, Buffer};
use crate::{Call, Outcome, Subject, Tally};
use florinhado::{calls, Header};
use second::generate::{oversize_writer_input, writer_input, WriterInput};
use second::random::Random;
use second::Fields;

const NAME: &str = "ilbm_write";

/// One picture of so many is longer than a file may be.
const OVERSIZE: usize = 40_000;

pub const CALL: Call = Call { name: NAME, numbers: &[&[0, 32, 33, 34, 35, 45]], compare, run };

/// The file's bytes are written as a picture of 256 colours and 512 pixels a line.
fn run(file: &[u8]) {
    let height = (file.len() / 512).min(32_767);
    let fields = Header { width: 512, height: height as u16, planes: 8, ..Header::default() };
    florinhado::write(&fields, b"", &file[..512 * height], &mut vec![0; file.len() + 48]).unwrap();
}

/// The picture that is written has nothing to do with the file.
fn compare(_: &Subject, random: &mut Random, tally: &mut Tally) -> Outcome {
    let input = if random.one_in(OVERSIZE) { oversize_writer_input(random) } else { writer_input(random) };
    let told =
        |text| format!("{:?}, palette {:?}, shape {:?}: {text}", input.fields, input.palette, input.shape);
    tally.add(NAME, written(&input, random).map_err(told)?);
    Ok(())
}

/// The second writer's fields in the library's type; pad1 has any value.
fn header(fields: &Fields, pad1: u8) -> Header {
    Header {
        width: fields.width,
        height: fields.height,
        x: fields.x,
        y: fields.y,
        planes: fields.planes,
        masking: fields.masking,
        compression: fields.compression,
        pad1,
        transparent: fields.transparent_color,
        x_aspect: fields.x_aspect,
        y_aspect: fields.y_aspect,
        page_width: fields.page_width,
        page_height: fields.page_height,
    }
}

fn call(given: &Header, input: &WriterInput, out: &mut [u8], length: &mut usize) -> usize {
    calls::ilbm_write(
        given.width,
        given.height,
        given.x,
        given.y,
        given.planes,
        given.masking,
        given.compression,
        given.transparent,
        given.x_aspect,
        given.y_aspect,
        given.page_width,
        given.page_height,
        &input.palette,
        &input.frame,
        &input.shape,
        out,
        length,
    )
}

/// Compares the writing of a picture and gives the answer.
pub fn written(input: &WriterInput, random: &mut Random) -> Result<usize, String> {
    let WriterInput { fields, palette, frame, shape, room } = input;
    let wanted = second::write_picture(fields, palette, frame, shape, *room).map_err(refused);
    let result = wanted.as_deref().unwrap_or(&[]);
    let given = header(fields, random.byte());
    let [mut length] = numbers(random);
    let mut buffer = Buffer::new(random, *room);
    let answer = call(&given, input, buffer.slice(), &mut length);
    let told = match &wanted {
        Ok(file) => [0, file.len()],
        Err(refused) => [refused.number, 0],
    };
    same("number, length", [answer, length], told)?;
    buffer.compare(result)?;
    let mut buffer = Buffer::new(random, *room);
    let ours = florinhado::write_with_shape(&given, palette, frame, shape, buffer.slice());
    same("write_with_shape", ours, wanted.as_ref().map(Vec::len).map_err(|refused| *refused))?;
    buffer.compare(result)?;
    if shape.is_empty() {
        let mut buffer = Buffer::new(random, *room);
        let ours = florinhado::write(&given, palette, frame, buffer.slice());
        same("write", ours, wanted.as_ref().map(Vec::len).map_err(|refused| *refused))?;
        buffer.compare(result)?;
    }
    Ok(answer)
}
