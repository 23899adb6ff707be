//! The job with the largest totals.

/// Samples of 0 and 255 by turns, in rows and in columns.
pub fn chessboard(width: usize, height: usize) -> Vec<u8> {
    (0..width * height)
        .map(|pixel| if is_white(width, pixel) { 255 } else { 0 })
        .collect()
}

/// A flow of `value` from each pixel of sample 0 of the chessboard to its neighbours. A
/// value above 0 pushes their differences apart and lowers the floor.
pub fn chessboard_flow(width: usize, height: usize, value: i32) -> Vec<i32> {
    let uppers = 0..width * (height - 1);
    let lefts = (0..width * height).filter(|pixel| pixel % width + 1 < width);
    uppers
        .chain(lefts)
        .map(|first| value * if is_white(width, first) { -1 } else { 1 })
        .collect()
}

fn is_white(width: usize, pixel: usize) -> bool {
    (pixel / width + pixel % width) % 2 == 1
}
