//! The exported calls in the shapes that the library gives them: numbers and
//! slices. Each returns 0, or the number of a refusal, and writes every
//! number behind a reference. The other functions of this package are built on these.
#![allow(unsafe_code)]

mod exported {
    extern "C" {
        pub fn iff_check(
            file: *const u8,
            file_length: usize,
            place: &mut usize,
            chunks: &mut usize,
            end: &mut usize,
            trailing: &mut usize,
        ) -> usize;

        pub fn iff_record(
            file: *const u8,
            file_length: usize,
            number: usize,
            place: &mut usize,
            level: &mut usize,
            kind: &mut usize,
            name: &mut u32,
            at: &mut usize,
            size: &mut usize,
        ) -> usize;

        pub fn iff_records(
            file: *const u8,
            file_length: usize,
            numbers: *mut usize,
            numbers_length: usize,
            levels: *mut usize,
            levels_length: usize,
            kinds: *mut u8,
            kinds_length: usize,
            names: *mut u32,
            names_length: usize,
            places: *mut usize,
            places_length: usize,
            sizes: *mut usize,
            sizes_length: usize,
            place: &mut usize,
            chunks: &mut usize,
        ) -> usize;

        pub fn iff_data(
            file: *const u8,
            file_length: usize,
            number: usize,
            place: &mut usize,
            from: &mut usize,
            to: &mut usize,
        ) -> usize;

        pub fn iff_clean_copy(
            file: *const u8,
            file_length: usize,
            out: *mut u8,
            out_length: usize,
            place: &mut usize,
            length: &mut usize,
        ) -> usize;

        pub fn iff_count_pictures(
            file: *const u8,
            file_length: usize,
            place: &mut usize,
            pictures: &mut usize,
        ) -> usize;

        pub fn ilbm_header(
            file: *const u8,
            file_length: usize,
            picture: usize,
            place: &mut usize,
            w: &mut u16,
            h: &mut u16,
            x: &mut i16,
            y: &mut i16,
            planes: &mut u8,
            masking: &mut u8,
            compression: &mut u8,
            pad1: &mut u8,
            transparent: &mut u16,
            x_aspect: &mut u8,
            y_aspect: &mut u8,
            page_width: &mut i16,
            page_height: &mut i16,
            origin: &mut usize,
            shared: &mut usize,
        ) -> usize;

        pub fn ilbm_grab(
            file: *const u8,
            file_length: usize,
            picture: usize,
            place: &mut usize,
            x: &mut i16,
            y: &mut i16,
            origin: &mut usize,
            shared: &mut usize,
        ) -> usize;

        pub fn ilbm_dest(
            file: *const u8,
            file_length: usize,
            picture: usize,
            place: &mut usize,
            depth: &mut u8,
            pad1: &mut u8,
            plane_pick: &mut u16,
            plane_on_off: &mut u16,
            plane_mask: &mut u16,
            origin: &mut usize,
            shared: &mut usize,
        ) -> usize;

        pub fn ilbm_sprite(
            file: *const u8,
            file_length: usize,
            picture: usize,
            place: &mut usize,
            sprite: &mut u16,
            origin: &mut usize,
            shared: &mut usize,
        ) -> usize;

        pub fn ilbm_view_mode(
            file: *const u8,
            file_length: usize,
            picture: usize,
            place: &mut usize,
            view_mode: &mut u32,
            origin: &mut usize,
            shared: &mut usize,
        ) -> usize;

        pub fn ilbm_palette(
            file: *const u8,
            file_length: usize,
            picture: usize,
            place: &mut usize,
            origin: &mut usize,
            shared: &mut usize,
            from: &mut usize,
            to: &mut usize,
        ) -> usize;

        pub fn ilbm_line(
            file: *const u8,
            file_length: usize,
            picture: usize,
            start: usize,
            row: *mut u8,
            row_length: usize,
            place: &mut usize,
            next: &mut usize,
        ) -> usize;

        pub fn ilbm_frame(
            file: *const u8,
            file_length: usize,
            picture: usize,
            frame: *mut u8,
            frame_length: usize,
            place: &mut usize,
            leftover: &mut usize,
        ) -> usize;

        pub fn ilbm_shape_line(
            file: *const u8,
            file_length: usize,
            picture: usize,
            start: usize,
            row: *mut u8,
            row_length: usize,
            shape: *mut u8,
            shape_length: usize,
            place: &mut usize,
            next: &mut usize,
        ) -> usize;

        pub fn ilbm_shape_frame(
            file: *const u8,
            file_length: usize,
            picture: usize,
            frame: *mut u8,
            frame_length: usize,
            shape: *mut u8,
            shape_length: usize,
            place: &mut usize,
            leftover: &mut usize,
        ) -> usize;

        pub fn ilbm_colour_line(
            file: *const u8,
            file_length: usize,
            picture: usize,
            start: usize,
            default_palette: *const u8,
            default_length: usize,
            row: *mut u8,
            row_length: usize,
            place: &mut usize,
            next: &mut usize,
        ) -> usize;

        pub fn ilbm_colour_frame(
            file: *const u8,
            file_length: usize,
            picture: usize,
            default_palette: *const u8,
            default_length: usize,
            frame: *mut u8,
            frame_length: usize,
            place: &mut usize,
            leftover: &mut usize,
        ) -> usize;

        pub fn ilbm_triples(
            file: *const u8,
            file_length: usize,
            picture: usize,
            default_palette: *const u8,
            default_length: usize,
            triples: *mut u8,
            triples_length: usize,
            place: &mut usize,
        ) -> usize;

        pub fn ilbm_pictures(
            file: *const u8,
            file_length: usize,
            table: *mut usize,
            table_length: usize,
            place: &mut usize,
            pictures: &mut usize,
        ) -> usize;

        pub fn ilbm_bmhd(
            data: *const u8,
            data_length: usize,
            w: &mut u16,
            h: &mut u16,
            x: &mut i16,
            y: &mut i16,
            planes: &mut u8,
            masking: &mut u8,
            compression: &mut u8,
            pad1: &mut u8,
            transparent: &mut u16,
            x_aspect: &mut u8,
            y_aspect: &mut u8,
            page_width: &mut i16,
            page_height: &mut i16,
        ) -> usize;

        pub fn ilbm_body_line(
            body: *const u8,
            body_length: usize,
            w: u16,
            planes: u8,
            masking: u8,
            compression: u8,
            start: usize,
            row: *mut u8,
            row_length: usize,
            place: &mut usize,
            next: &mut usize,
        ) -> usize;

        pub fn ilbm_body_frame(
            body: *const u8,
            body_length: usize,
            w: u16,
            h: u16,
            planes: u8,
            masking: u8,
            compression: u8,
            frame: *mut u8,
            frame_length: usize,
            place: &mut usize,
            leftover: &mut usize,
        ) -> usize;

        pub fn ilbm_body_shape_line(
            body: *const u8,
            body_length: usize,
            w: u16,
            planes: u8,
            masking: u8,
            compression: u8,
            transparent: u16,
            start: usize,
            row: *mut u8,
            row_length: usize,
            shape: *mut u8,
            shape_length: usize,
            place: &mut usize,
            next: &mut usize,
        ) -> usize;

        pub fn ilbm_body_shape_frame(
            body: *const u8,
            body_length: usize,
            w: u16,
            h: u16,
            planes: u8,
            masking: u8,
            compression: u8,
            transparent: u16,
            frame: *mut u8,
            frame_length: usize,
            shape: *mut u8,
            shape_length: usize,
            place: &mut usize,
            leftover: &mut usize,
        ) -> usize;

        pub fn ilbm_body_colour_line(
            body: *const u8,
            body_length: usize,
            w: u16,
            planes: u8,
            masking: u8,
            compression: u8,
            view_mode: u32,
            palette: *const u8,
            palette_length: usize,
            start: usize,
            row: *mut u8,
            row_length: usize,
            place: &mut usize,
            next: &mut usize,
        ) -> usize;

        pub fn ilbm_body_colour_frame(
            body: *const u8,
            body_length: usize,
            w: u16,
            h: u16,
            planes: u8,
            masking: u8,
            compression: u8,
            view_mode: u32,
            palette: *const u8,
            palette_length: usize,
            frame: *mut u8,
            frame_length: usize,
            place: &mut usize,
            leftover: &mut usize,
        ) -> usize;

        pub fn ilbm_palette_triples(
            palette: *const u8,
            palette_length: usize,
            planes: u8,
            view_mode: u32,
            triples: *mut u8,
            triples_length: usize,
        ) -> usize;

        pub fn byterun_pack(
            row: *const u8,
            row_length: usize,
            out: *mut u8,
            out_length: usize,
            length: &mut usize,
        ) -> usize;

        pub fn ilbm_write(
            w: u16,
            h: u16,
            x: i16,
            y: i16,
            planes: u8,
            masking: u8,
            compression: u8,
            transparent: u16,
            x_aspect: u8,
            y_aspect: u8,
            page_width: i16,
            page_height: i16,
            palette: *const u8,
            palette_length: usize,
            frame: *const u8,
            frame_length: usize,
            shape: *const u8,
            shape_length: usize,
            out: *mut u8,
            out_length: usize,
            length: &mut usize,
        ) -> usize;
    }
}

// In each function a pointer is passed with its slice's own length. The calls
// are proved to touch nothing else and they keep no pointer.

/// Judges the structure of a file: 0, or 1 to 12 with the place.
pub fn iff_check(
    file: &[u8],
    place: &mut usize,
    chunks: &mut usize,
    end: &mut usize,
    trailing: &mut usize,
) -> usize {
    unsafe { exported::iff_check(file.as_ptr(), file.len(), place, chunks, end, trailing) }
}

/// Tells one record: 0, or 1 to 12 with the place, or 14. The kind is 1 FORM,
/// 2 LIST, 3 CAT, 4 PROP, 5 local, 6 filler; the name's first byte is its highest.
#[allow(clippy::too_many_arguments)]
pub fn iff_record(
    file: &[u8],
    number: usize,
    place: &mut usize,
    level: &mut usize,
    kind: &mut usize,
    name: &mut u32,
    at: &mut usize,
    size: &mut usize,
) -> usize {
    unsafe { exported::iff_record(file.as_ptr(), file.len(), number, place, level, kind, name, at, size) }
}

/// Tells all records, a column for each field: 0, or 1 to 12 with the place, or
/// 13 if the shortest column has fewer places than there are chunks. The kinds
/// are as above; places behind the last chunk stay as they are.
#[allow(clippy::too_many_arguments)]
pub fn iff_records(
    file: &[u8],
    numbers: &mut [usize],
    levels: &mut [usize],
    kinds: &mut [u8],
    names: &mut [u32],
    places: &mut [usize],
    sizes: &mut [usize],
    place: &mut usize,
    chunks: &mut usize,
) -> usize {
    unsafe {
        exported::iff_records(
            file.as_ptr(),
            file.len(),
            numbers.as_mut_ptr(),
            numbers.len(),
            levels.as_mut_ptr(),
            levels.len(),
            kinds.as_mut_ptr(),
            kinds.len(),
            names.as_mut_ptr(),
            names.len(),
            places.as_mut_ptr(),
            places.len(),
            sizes.as_mut_ptr(),
            sizes.len(),
            place,
            chunks,
        )
    }
}

/// Tells where a local chunk's or a filler's data lies: 0, or 1 to 12 with
/// the place, or 14, or 15 for a group.
pub fn iff_data(file: &[u8], number: usize, place: &mut usize, from: &mut usize, to: &mut usize) -> usize {
    unsafe { exported::iff_data(file.as_ptr(), file.len(), number, place, from, to) }
}

/// Writes the clean copy: 0, or 1 to 12 with the place, or 32.
pub fn iff_clean_copy(file: &[u8], out: &mut [u8], place: &mut usize, length: &mut usize) -> usize {
    unsafe { exported::iff_clean_copy(file.as_ptr(), file.len(), out.as_mut_ptr(), out.len(), place, length) }
}

/// Counts the pictures: 0, or 1 to 12 with the place.
pub fn iff_count_pictures(file: &[u8], place: &mut usize, pictures: &mut usize) -> usize {
    unsafe { exported::iff_count_pictures(file.as_ptr(), file.len(), place, pictures) }
}

/// Tells the BMHD that counts for a picture: 0, or a number of a picture.
/// The origin is 1 own, 2 shared by the PROP at `shared`, 0 absent.
#[allow(clippy::too_many_arguments)]
pub fn ilbm_header(
    file: &[u8],
    picture: usize,
    place: &mut usize,
    w: &mut u16,
    h: &mut u16,
    x: &mut i16,
    y: &mut i16,
    planes: &mut u8,
    masking: &mut u8,
    compression: &mut u8,
    pad1: &mut u8,
    transparent: &mut u16,
    x_aspect: &mut u8,
    y_aspect: &mut u8,
    page_width: &mut i16,
    page_height: &mut i16,
    origin: &mut usize,
    shared: &mut usize,
) -> usize {
    unsafe {
        exported::ilbm_header(
            file.as_ptr(),
            file.len(),
            picture,
            place,
            w,
            h,
            x,
            y,
            planes,
            masking,
            compression,
            pad1,
            transparent,
            x_aspect,
            y_aspect,
            page_width,
            page_height,
            origin,
            shared,
        )
    }
}

/// Tells the GRAB that counts for a picture: 0, or a number of a picture.
/// The origin is as above; the fields of an absent property are 0.
pub fn ilbm_grab(
    file: &[u8],
    picture: usize,
    place: &mut usize,
    x: &mut i16,
    y: &mut i16,
    origin: &mut usize,
    shared: &mut usize,
) -> usize {
    unsafe { exported::ilbm_grab(file.as_ptr(), file.len(), picture, place, x, y, origin, shared) }
}

/// Tells the DEST that counts for a picture: 0, or a number of a picture.
/// The origin is as above; the fields of an absent property are 0.
#[allow(clippy::too_many_arguments)]
pub fn ilbm_dest(
    file: &[u8],
    picture: usize,
    place: &mut usize,
    depth: &mut u8,
    pad1: &mut u8,
    plane_pick: &mut u16,
    plane_on_off: &mut u16,
    plane_mask: &mut u16,
    origin: &mut usize,
    shared: &mut usize,
) -> usize {
    unsafe {
        exported::ilbm_dest(
            file.as_ptr(),
            file.len(),
            picture,
            place,
            depth,
            pad1,
            plane_pick,
            plane_on_off,
            plane_mask,
            origin,
            shared,
        )
    }
}

/// Tells the SPRT that counts for a picture: 0, or a number of a picture.
/// The origin is as above; the fields of an absent property are 0.
pub fn ilbm_sprite(
    file: &[u8],
    picture: usize,
    place: &mut usize,
    sprite: &mut u16,
    origin: &mut usize,
    shared: &mut usize,
) -> usize {
    unsafe { exported::ilbm_sprite(file.as_ptr(), file.len(), picture, place, sprite, origin, shared) }
}

/// Tells the CAMG that counts for a picture: 0, or a number of a picture.
/// The origin is as above; the fields of an absent property are 0.
pub fn ilbm_view_mode(
    file: &[u8],
    picture: usize,
    place: &mut usize,
    view_mode: &mut u32,
    origin: &mut usize,
    shared: &mut usize,
) -> usize {
    unsafe { exported::ilbm_view_mode(file.as_ptr(), file.len(), picture, place, view_mode, origin, shared) }
}

/// Tells where the CMAP that counts for a picture lies in the file: 0, or a
/// number of a picture. With the origin 0 it lies nowhere.
pub fn ilbm_palette(
    file: &[u8],
    picture: usize,
    place: &mut usize,
    origin: &mut usize,
    shared: &mut usize,
    from: &mut usize,
    to: &mut usize,
) -> usize {
    unsafe { exported::ilbm_palette(file.as_ptr(), file.len(), picture, place, origin, shared, from, to) }
}

/// Writes the colour numbers of a scan line from a place of the BODY: 0, or a
/// number of a picture or of its rows.
pub fn ilbm_line(
    file: &[u8],
    picture: usize,
    start: usize,
    row: &mut [u8],
    place: &mut usize,
    next: &mut usize,
) -> usize {
    unsafe {
        exported::ilbm_line(
            file.as_ptr(),
            file.len(),
            picture,
            start,
            row.as_mut_ptr(),
            row.len(),
            place,
            next,
        )
    }
}

/// Writes the colour numbers of all scan lines: 0, or a number of a picture or
/// of its rows.
pub fn ilbm_frame(
    file: &[u8],
    picture: usize,
    frame: &mut [u8],
    place: &mut usize,
    leftover: &mut usize,
) -> usize {
    unsafe {
        exported::ilbm_frame(
            file.as_ptr(),
            file.len(),
            picture,
            frame.as_mut_ptr(),
            frame.len(),
            place,
            leftover,
        )
    }
}

/// Writes the colour numbers of a scan line from a place of the BODY, and its
/// shape, 1 for a pixel that shows and 0 for one that doesn't: 0, or a number of
/// a picture or of its rows.
pub fn ilbm_shape_line(
    file: &[u8],
    picture: usize,
    start: usize,
    row: &mut [u8],
    shape: &mut [u8],
    place: &mut usize,
    next: &mut usize,
) -> usize {
    unsafe {
        exported::ilbm_shape_line(
            file.as_ptr(),
            file.len(),
            picture,
            start,
            row.as_mut_ptr(),
            row.len(),
            shape.as_mut_ptr(),
            shape.len(),
            place,
            next,
        )
    }
}

/// Writes the colour numbers of all scan lines and their shape: 0, or a number of
/// a picture or of its rows.
pub fn ilbm_shape_frame(
    file: &[u8],
    picture: usize,
    frame: &mut [u8],
    shape: &mut [u8],
    place: &mut usize,
    leftover: &mut usize,
) -> usize {
    unsafe {
        exported::ilbm_shape_frame(
            file.as_ptr(),
            file.len(),
            picture,
            frame.as_mut_ptr(),
            frame.len(),
            shape.as_mut_ptr(),
            shape.len(),
            place,
            leftover,
        )
    }
}

/// Writes a scan line from a place of the BODY in colours, three bytes a pixel, by
/// the palette of the picture or the default: 0, or a number of a picture or of its
/// rows in colours.
pub fn ilbm_colour_line(
    file: &[u8],
    picture: usize,
    start: usize,
    default_palette: &[u8],
    row: &mut [u8],
    place: &mut usize,
    next: &mut usize,
) -> usize {
    unsafe {
        exported::ilbm_colour_line(
            file.as_ptr(),
            file.len(),
            picture,
            start,
            default_palette.as_ptr(),
            default_palette.len(),
            row.as_mut_ptr(),
            row.len(),
            place,
            next,
        )
    }
}

/// Writes all scan lines in colours: 0, or a number of a picture or of its rows in
/// colours.
pub fn ilbm_colour_frame(
    file: &[u8],
    picture: usize,
    default_palette: &[u8],
    frame: &mut [u8],
    place: &mut usize,
    leftover: &mut usize,
) -> usize {
    unsafe {
        exported::ilbm_colour_frame(
            file.as_ptr(),
            file.len(),
            picture,
            default_palette.as_ptr(),
            default_palette.len(),
            frame.as_mut_ptr(),
            frame.len(),
            place,
            leftover,
        )
    }
}

/// Writes the palette of a picture or the default as 64 triples, 192 bytes: 0, or a
/// number of a picture, or 32 for less room. Bytes behind them stay as they are.
pub fn ilbm_triples(
    file: &[u8],
    picture: usize,
    default_palette: &[u8],
    triples: &mut [u8],
    place: &mut usize,
) -> usize {
    unsafe {
        exported::ilbm_triples(
            file.as_ptr(),
            file.len(),
            picture,
            default_palette.as_ptr(),
            default_palette.len(),
            triples.as_mut_ptr(),
            triples.len(),
            place,
        )
    }
}

/// Tells all pictures, 30 numbers each: 0, or 1 to 12 with the place, or 13 if
/// the table has fewer places than there are pictures. Of each: its answer, its
/// FORM's place and type; for BMHD, CMAP, GRAB, DEST, SPRT and CAMG the origin
/// as above, the PROP's place, and where its data lies, from and to; 1 or 0 for a
/// BODY, from and to. Of a refused picture the first three are told, and the
/// others are 0. Numbers behind the last picture stay as they are.
pub fn ilbm_pictures(file: &[u8], table: &mut [usize], place: &mut usize, pictures: &mut usize) -> usize {
    unsafe {
        exported::ilbm_pictures(file.as_ptr(), file.len(), table.as_mut_ptr(), table.len(), place, pictures)
    }
}

/// Tells the fields of a BMHD by its bytes: 0, or 23 if it hasn't 20.
#[allow(clippy::too_many_arguments)]
pub fn ilbm_bmhd(
    data: &[u8],
    w: &mut u16,
    h: &mut u16,
    x: &mut i16,
    y: &mut i16,
    planes: &mut u8,
    masking: &mut u8,
    compression: &mut u8,
    pad1: &mut u8,
    transparent: &mut u16,
    x_aspect: &mut u8,
    y_aspect: &mut u8,
    page_width: &mut i16,
    page_height: &mut i16,
) -> usize {
    unsafe {
        exported::ilbm_bmhd(
            data.as_ptr(),
            data.len(),
            w,
            h,
            x,
            y,
            planes,
            masking,
            compression,
            pad1,
            transparent,
            x_aspect,
            y_aspect,
            page_width,
            page_height,
        )
    }
}

/// Writes the colour numbers of a scan line from a place of any bytes as a BODY:
/// 0, or 41, 42, 43, 24, 29, 28, 27 or 26, tried in this order.
#[allow(clippy::too_many_arguments)]
pub fn ilbm_body_line(
    body: &[u8],
    w: u16,
    planes: u8,
    masking: u8,
    compression: u8,
    start: usize,
    row: &mut [u8],
    place: &mut usize,
    next: &mut usize,
) -> usize {
    unsafe {
        exported::ilbm_body_line(
            body.as_ptr(),
            body.len(),
            w,
            planes,
            masking,
            compression,
            start,
            row.as_mut_ptr(),
            row.len(),
            place,
            next,
        )
    }
}

/// Writes the colour numbers of all scan lines of any bytes as a BODY: 0, or 41,
/// 42, 43, 24, 28, 27 or 26, tried in this order.
#[allow(clippy::too_many_arguments)]
pub fn ilbm_body_frame(
    body: &[u8],
    w: u16,
    h: u16,
    planes: u8,
    masking: u8,
    compression: u8,
    frame: &mut [u8],
    place: &mut usize,
    leftover: &mut usize,
) -> usize {
    unsafe {
        exported::ilbm_body_frame(
            body.as_ptr(),
            body.len(),
            w,
            h,
            planes,
            masking,
            compression,
            frame.as_mut_ptr(),
            frame.len(),
            place,
            leftover,
        )
    }
}

/// Writes the colour numbers of a scan line from a place of any bytes as a BODY,
/// and its shape: 0, or 41, 42, 43, 24, 29, 28, 44, 27 or 26, tried in this order.
#[allow(clippy::too_many_arguments)]
pub fn ilbm_body_shape_line(
    body: &[u8],
    w: u16,
    planes: u8,
    masking: u8,
    compression: u8,
    transparent: u16,
    start: usize,
    row: &mut [u8],
    shape: &mut [u8],
    place: &mut usize,
    next: &mut usize,
) -> usize {
    unsafe {
        exported::ilbm_body_shape_line(
            body.as_ptr(),
            body.len(),
            w,
            planes,
            masking,
            compression,
            transparent,
            start,
            row.as_mut_ptr(),
            row.len(),
            shape.as_mut_ptr(),
            shape.len(),
            place,
            next,
        )
    }
}

/// Writes the colour numbers of all scan lines of any bytes as a BODY and their
/// shape: 0, or 41, 42, 43, 24, 28, 44, 27 or 26, tried in this order.
#[allow(clippy::too_many_arguments)]
pub fn ilbm_body_shape_frame(
    body: &[u8],
    w: u16,
    h: u16,
    planes: u8,
    masking: u8,
    compression: u8,
    transparent: u16,
    frame: &mut [u8],
    shape: &mut [u8],
    place: &mut usize,
    leftover: &mut usize,
) -> usize {
    unsafe {
        exported::ilbm_body_shape_frame(
            body.as_ptr(),
            body.len(),
            w,
            h,
            planes,
            masking,
            compression,
            transparent,
            frame.as_mut_ptr(),
            frame.len(),
            shape.as_mut_ptr(),
            shape.len(),
            place,
            leftover,
        )
    }
}

/// Writes a scan line from a place of any bytes as a BODY in colours: 0, or 41, 42,
/// 43, 24, 46, 29, 28, 27 or 26, tried in this order.
#[allow(clippy::too_many_arguments)]
pub fn ilbm_body_colour_line(
    body: &[u8],
    w: u16,
    planes: u8,
    masking: u8,
    compression: u8,
    view_mode: u32,
    palette: &[u8],
    start: usize,
    row: &mut [u8],
    place: &mut usize,
    next: &mut usize,
) -> usize {
    unsafe {
        exported::ilbm_body_colour_line(
            body.as_ptr(),
            body.len(),
            w,
            planes,
            masking,
            compression,
            view_mode,
            palette.as_ptr(),
            palette.len(),
            start,
            row.as_mut_ptr(),
            row.len(),
            place,
            next,
        )
    }
}

/// Writes all scan lines of any bytes as a BODY in colours: 0, or 41, 42, 43, 24,
/// 46, 28, 27 or 26, tried in this order.
#[allow(clippy::too_many_arguments)]
pub fn ilbm_body_colour_frame(
    body: &[u8],
    w: u16,
    h: u16,
    planes: u8,
    masking: u8,
    compression: u8,
    view_mode: u32,
    palette: &[u8],
    frame: &mut [u8],
    place: &mut usize,
    leftover: &mut usize,
) -> usize {
    unsafe {
        exported::ilbm_body_colour_frame(
            body.as_ptr(),
            body.len(),
            w,
            h,
            planes,
            masking,
            compression,
            view_mode,
            palette.as_ptr(),
            palette.len(),
            frame.as_mut_ptr(),
            frame.len(),
            place,
            leftover,
        )
    }
}

/// Writes any palette as 64 triples, 192 bytes, by the planes and the view modes: 0,
/// or 32 for less room.
pub fn ilbm_palette_triples(palette: &[u8], planes: u8, view_mode: u32, triples: &mut [u8]) -> usize {
    unsafe {
        exported::ilbm_palette_triples(
            palette.as_ptr(),
            palette.len(),
            planes,
            view_mode,
            triples.as_mut_ptr(),
            triples.len(),
        )
    }
}

/// Packs a row: 0, or 31 or 32.
pub fn byterun_pack(row: &[u8], out: &mut [u8], length: &mut usize) -> usize {
    unsafe { exported::byterun_pack(row.as_ptr(), row.len(), out.as_mut_ptr(), out.len(), length) }
}

/// Writes one picture as a file: 0, or 33, 34, 45, 35 or 32. The shape has a byte
/// for each pixel with masking 1, and none else.
#[allow(clippy::too_many_arguments)]
pub fn ilbm_write(
    w: u16,
    h: u16,
    x: i16,
    y: i16,
    planes: u8,
    masking: u8,
    compression: u8,
    transparent: u16,
    x_aspect: u8,
    y_aspect: u8,
    page_width: i16,
    page_height: i16,
    palette: &[u8],
    frame: &[u8],
    shape: &[u8],
    out: &mut [u8],
    length: &mut usize,
) -> usize {
    unsafe {
        exported::ilbm_write(
            w,
            h,
            x,
            y,
            planes,
            masking,
            compression,
            transparent,
            x_aspect,
            y_aspect,
            page_width,
            page_height,
            palette.as_ptr(),
            palette.len(),
            frame.as_ptr(),
            frame.len(),
            shape.as_ptr(),
            shape.len(),
            out.as_mut_ptr(),
            out.len(),
            length,
        )
    }
}
