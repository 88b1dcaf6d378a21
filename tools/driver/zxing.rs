//! zxing-cpp, a reader of other authors: it reads a picture of a label that holds nothing else.

extern "C" {
    // zxing.cpp
    fn zxing_read(picture: *const u8, width: i32, text: *mut u8, room: i64) -> i64;
}

/// Light modules around the label.
const BORDER: usize = 4;

/// The picture of a label, one grey byte a module, and its width.
pub fn picture(grid: &[u8], size: usize) -> (Vec<u8>, usize) {
    let width = size + 2 * BORDER;
    let mut grey = vec![255; width * width];
    for (i, _) in grid.iter().enumerate().filter(|(_, &module)| module == 1) {
        grey[(i / size + BORDER) * width + i % size + BORDER] = 0;
    }
    (grey, width)
}

/// How many bytes a picture's label holds, written to the start of text; none where nothing is read.
pub fn read(picture: &[u8], width: usize, text: &mut [u8]) -> Option<usize> {
    assert!(picture.len() >= width * width);
    // Safety: the picture has width × width bytes, and no more than the text's length is written.
    let n = unsafe { zxing_read(picture.as_ptr(), width as i32, text.as_mut_ptr(), text.len() as i64) };
    usize::try_from(n).ok()
}
