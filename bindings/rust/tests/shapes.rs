//! Brushes: which pixels of a picture show, read and written.

use florinhado::{shape_frame, shape_line, write, write_with_shape, File, Header, Refused};

const FRAME: [u8; 10] = [0, 1, 2, 3, 3, 2, 1, 0, 1, 2];
const SHAPE: [u8; 10] = [0, 1, 1, 0, 0, 1, 1, 1, 1, 0];

fn fields(masking: u8, compression: u8) -> Header {
    let transparent = 2;
    Header { width: 5, height: 2, planes: 2, masking, compression, transparent, ..Header::default() }
}

fn file(masking: u8, compression: u8) -> Vec<u8> {
    let mut out = vec![9; 200];
    let shape = if masking == 1 { &SHAPE[..] } else { &[] };
    let length = write_with_shape(&fields(masking, compression), b"", &FRAME, shape, &mut out).unwrap();
    out.truncate(length);
    out
}

#[test]
fn each_masking_reads_back() {
    let opaque: Vec<u8> = FRAME.iter().map(|colour| u8::from(*colour != 2)).collect();
    for compression in [0, 1] {
        for (masking, wanted) in [(0, &[1; 10][..]), (1, &SHAPE[..]), (2, &opaque)] {
            let bytes = file(masking, compression);
            let (mut colours, mut shape) = ([9; 10], [9; 10]);
            assert_eq!(shape_frame(&bytes, 0, &mut colours, &mut shape), Ok(0));
            assert_eq!((colours, &shape[..]), (FRAME, wanted));
            let opened = File::new(&bytes).unwrap();
            let picture = opened.picture(0).unwrap();
            let lines: Result<Vec<_>, _> = picture.lines_with_shape().collect();
            let lines = lines.unwrap();
            assert_eq!(lines.iter().flat_map(|line| line.shape.clone()).collect::<Vec<_>>(), wanted);
            let shown = picture.frame_with_shape().unwrap().shown().flatten().count();
            assert_eq!(shown, wanted.iter().filter(|byte| **byte == 1).count());
            let mut place = 0;
            for line in &lines {
                let (mut row, mut shape) = ([9; 5], [9; 5]);
                place = shape_line(&bytes, 0, place, &mut row, &mut shape).unwrap();
                assert_eq!((&row[..], &shape[..]), (&line.colours[..], &line.shape[..]));
            }
        }
    }
}

/// A refusal changes neither the row nor the shape.
#[test]
fn lasso_and_wrong_lengths() {
    let bytes = file(3, 0);
    let opened = File::new(&bytes).unwrap();
    let picture = opened.picture(0).unwrap();
    assert_eq!(picture.frame().unwrap(), FRAME);
    for (colours, shape, number) in [(10, 10, 44), (9, 10, 28), (10, 9, 28), (10, 0, 28), (11, 9, 28)] {
        let (mut frame, mut lent) = (vec![7; colours], vec![8; shape]);
        let refused = Err(Refused { number, place: 0 });
        assert_eq!(shape_frame(&bytes, 0, &mut frame, &mut lent), refused);
        assert_eq!(picture.frame_with_shape_into(&mut frame, &mut lent), refused);
        assert_eq!((frame, lent), (vec![7; colours], vec![8; shape]));
    }
}

#[test]
fn shapes_that_are_not_written() {
    let mut out = [0; 200];
    let number = |told: Result<usize, Refused>| told.unwrap_err().number;
    assert_eq!(number(write(&fields(1, 0), b"", &FRAME, &mut out)), 45);
    let mut wrong = SHAPE;
    wrong[9] = 2;
    assert_eq!(number(write_with_shape(&fields(1, 0), b"", &FRAME, &wrong, &mut out)), 45);
    assert_eq!(number(write_with_shape(&fields(0, 0), b"", &FRAME, &SHAPE, &mut out)), 45);
    assert_eq!(out, [0; 200]);
}
