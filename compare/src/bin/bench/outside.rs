//! libavcodec's decoder of frames and libswscale's way to colours, in the same
//! process: a shared object that `bench.sh` makes of `libavcodec.c`.

use crate::drawn::{Drawn, Shape};
use crate::timing::{timed, Timed};
use std::ffi::{c_char, c_int, c_void, CString};
use std::mem::transmute_copy;

extern "C" {
    fn dlopen(name: *const c_char, flags: c_int) -> *mut c_void;
    fn dlsym(library: *mut c_void, name: *const c_char) -> *mut c_void;
}

/// `RTLD_NOW`
const AT_ONCE: c_int = 2;

type Open = unsafe extern "C" fn(c_int, c_int, c_int, c_int, c_int, *const u8, c_int) -> *mut c_void;
type Add = unsafe extern "C" fn(*mut c_void, *const u8, usize);
type Decode = unsafe extern "C" fn(*mut c_void, usize);
type Copy = unsafe extern "C" fn(*const c_void, *mut u8);
type Show = unsafe extern "C" fn(*mut c_void, usize, *mut u8);

/// The functions of the shared object, which stays loaded.
pub struct Outside {
    open: Open,
    add: Add,
    decode: Decode,
    copy: Copy,
    show: Show,
}

impl Outside {
    pub fn load(name: &str) -> Outside {
        let name = CString::new(name).expect("a name");
        let library = unsafe { dlopen(name.as_ptr(), AT_ONCE) };
        assert!(!library.is_null(), "the shared object of libavcodec.c");
        Outside {
            open: found(library, c"outside_open"),
            add: found(library, c"outside_add"),
            decode: found(library, c"outside_decode"),
            copy: found(library, c"outside_copy"),
            show: found(library, c"outside_show"),
        }
    }

    /// Decodes all the pictures once, after it has been seen to give their frames.
    pub fn decoder<'a>(&self, shape: Shape, compression: u8, pictures: &[Drawn]) -> Timed<'a> {
        let palette: Vec<u8> = (0..3 << shape.planes).map(|n| n as u8).collect();
        let decoder = self.open(shape, compression, 0, &palette);
        let mut frame = vec![0; shape.width * shape.height];
        for (number, picture) in pictures.iter().enumerate() {
            self.add(decoder, picture);
            unsafe {
                (self.decode)(decoder, number);
                (self.copy)(decoder, frame.as_mut_ptr());
            }
            assert!(frame == picture.frame, "libavcodec's frame differs");
        }
        let (decode, count) = (self.decode, pictures.len());
        timed(move || (0..count).for_each(|number| unsafe { decode(decoder, number) }))
    }

    /// Decodes the picture with a number to colours, three bytes a pixel, into a frame of its shape.
    pub fn shower<'a>(
        &self,
        shape: Shape,
        compression: u8,
        mode: u32,
        palette: &[u8],
        pictures: &[Drawn],
    ) -> impl FnMut(usize, &mut [u8]) + 'a {
        let decoder = self.open(shape, compression, mode, palette);
        pictures.iter().for_each(|picture| self.add(decoder, picture));
        let (show, bytes) = (self.show, 3 * shape.width * shape.height);
        move |number, pixels| {
            assert_eq!(pixels.len(), bytes);
            unsafe { show(decoder, number, pixels.as_mut_ptr()) }
        }
    }

    fn open(&self, shape: Shape, compression: u8, mode: u32, palette: &[u8]) -> *mut c_void {
        let [width, height, planes] = [shape.width, shape.height, shape.planes].map(|n| n as c_int);
        let (mode, colours) = (mode as c_int, palette.len() as c_int);
        unsafe { (self.open)(width, height, planes, compression.into(), mode, palette.as_ptr(), colours) }
    }

    fn add(&self, decoder: *mut c_void, picture: &Drawn) {
        let body = picture.body().1;
        unsafe { (self.add)(decoder, body.as_ptr(), body.len()) }
    }
}

/// A function of the shared object, whose type the caller knows.
fn found<T>(library: *mut c_void, name: &std::ffi::CStr) -> T {
    let at = unsafe { dlsym(library, name.as_ptr()) };
    assert!(!at.is_null(), "{name:?} is missing");
    unsafe { transmute_copy(&at) }
}
