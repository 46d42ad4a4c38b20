//! Every picture both ways: what the table of pictures, the fields of a BMHD and the rows of a BODY
//! give together is what the calls by the picture's number give.

use crate::answers::Answers;
use crate::asked::Asked;
use crate::borrowed::same;
use crate::{Outcome, Subject, Tally};
use florinhado::{File, Refused, Shaped};
use second::random::Random;

pub const WHAT: &str = "both ways";

/// Compares all that is told of every picture that is asked for, also where there is none.
pub fn compare(subject: &Subject, random: &mut Random, tally: &mut Tally) -> Outcome {
    let opened = File::new(subject.file());
    subject.pictures.iter().try_for_each(|(picture, told)| {
        let asked = Asked::of(random, subject.file(), *picture, told);
        let by_number = Answers::of_library(subject.file(), &asked);
        tally.add(WHAT, by_number.number());
        let compared = same("calls on the picture", &Answers::of_opened(&opened, &asked), &by_number)
            .and_then(|()| whole(&opened, &asked, &by_number));
        compared.map_err(|text| format!("picture {picture}: {text}"))
    })
}

/// Compares the frame, and its lines in turn, with the frame by number.
fn whole(opened: &Result<File, Refused>, asked: &Asked, by_number: &Answers) -> Outcome {
    let picture = opened.as_ref().ok().and_then(|file| file.picture(asked.picture));
    let Some(picture) = picture.filter(|_| asked.is_whole) else { return Ok(()) };
    let wanted = by_number.rows.frame();
    same("frame", picture.frame().as_deref().map_err(|refused| *refused), wanted)?;
    let lines: Result<Vec<_>, _> = picture.lines().collect();
    same("lines", lines.map(|lines| lines.concat()), wanted.map(<[u8]>::to_vec))?;
    let wanted = by_number.rows.shape_frame();
    same("frame with its shape", picture.frame_with_shape().as_ref().map_err(|refused| *refused), wanted)?;
    let lines: Result<Vec<_>, _> = picture.lines_with_shape().collect();
    same("lines with their shape", lines.map(joined).as_ref().map_err(|refused| *refused), wanted)?;
    let wanted = by_number.rows.colour_frame();
    let frame = picture.colour_frame(&asked.default);
    same("frame in colours", frame.as_deref().map_err(|refused| *refused), wanted)?;
    let lines: Result<Vec<_>, _> = picture.colour_lines(&asked.default).collect();
    same("lines in colours", lines.map(|lines| lines.concat()), wanted.map(<[u8]>::to_vec))
}

fn joined(lines: Vec<Shaped>) -> Shaped {
    let [colours, shape] = [|line: &Shaped| line.colours.clone(), |line: &Shaped| line.shape.clone()];
    Shaped {
        colours: lines.iter().flat_map(colours).collect(),
        shape: lines.iter().flat_map(shape).collect(),
    }
}
