//! The exported calls as they are, over lent slices of any length.
//!
//! Each returns 0 or its refusal, and a refusal leaves every lent byte and number. This is the one module with
//! `unsafe`: [`Node`](crate::Node) and [`trail`](crate::trail) are built on it, and tests and benchmarks call it
//! directly.
//!
//! In the archive a slice is a pointer and then its length, an array or a lent number a pointer. The compiler cannot
//! hold these declarations against it; the tests `declarations` and `header` do, by calls in which each parameter's
//! effect is seen.

/// Where a walk of a trail stands: the end of what is left, w, the kinds of the frames shown, the extra frames in the
/// window, and the largest count so far.
pub type Cursor = [u64; 5];
/// A frame's start and length in a trail.
pub type Place = [u64; 2];

extern "C" {
    fn node_set_up(image: *mut u8, image_length: usize, me: usize, n: usize, cap: usize) -> u8;

    fn node_send(
        image: *mut u8,
        image_length: usize,
        to: usize,
        node_class: usize,
        body: *const u8,
        body_length: usize,
        out: *mut u8,
        out_length: usize,
        answer: *mut u8,
        answer_length: usize,
    ) -> u8;

    fn node_offer(
        image: *mut u8,
        image_length: usize,
        frame: *const u8,
        frame_length: usize,
        queue: *mut u8,
        queue_length: usize,
        answer: *mut u8,
        answer_length: usize,
    ) -> u8;

    fn node_deliver(
        image: *mut u8,
        image_length: usize,
        queue: *mut u8,
        queue_length: usize,
        out: *mut u8,
        out_length: usize,
        body: *mut u8,
        body_length: usize,
        answer: *mut u8,
        answer_length: usize,
    ) -> u8;

    fn trail_write(file: *mut u8, file_length: usize, used: *mut usize, frame: *const u8, frame_length: usize) -> u8;

    fn trail_step(file: *const u8, file_length: usize, cursor: *mut u64, shown: *mut u64) -> u8;

    fn trail_walk(file: *const u8, file_length: usize, w: usize, most: *mut usize) -> u8;
}

// SAFETY, of every call below: the exported functions require nothing of their input. They read and write inside the
// slices, arrays and numbers that they are lent, which the borrows keep valid and apart, keep no pointer, and return.

/// Set-up: 1, then 20 for an image that has not 632 bytes.
pub fn set_up(image: &mut [u8], me: usize, n: usize, cap: usize) -> u8 {
    unsafe { node_set_up(image.as_mut_ptr(), image.len(), me, n, cap) }
}

/// Send, as a node of this class, which is any number: 20, 3, 5, 6, 7, 21.
pub fn send(image: &mut [u8], to: usize, class: usize, body: &[u8], out: &mut [u8], answer: &mut [u8]) -> u8 {
    let lengths = (image.len(), body.len(), out.len(), answer.len());
    let (image, body, out, answer) = (image.as_mut_ptr(), body.as_ptr(), out.as_mut_ptr(), answer.as_mut_ptr());
    unsafe { node_send(image, lengths.0, to, class, body, lengths.1, out, lengths.2, answer, lengths.3) }
}

/// Offer: 20, 3, 4, 8 to 16.
pub fn offer(image: &mut [u8], frame: &[u8], queue: &mut [u8], answer: &mut [u8]) -> u8 {
    let lengths = (image.len(), frame.len(), queue.len(), answer.len());
    let (image, frame, queue, answer) = (image.as_mut_ptr(), frame.as_ptr(), queue.as_mut_ptr(), answer.as_mut_ptr());
    unsafe { node_offer(image, lengths.0, frame, lengths.1, queue, lengths.2, answer, lengths.3) }
}

/// Deliver: 20, 3, 4, 5.
pub fn deliver(image: &mut [u8], queue: &mut [u8], out: &mut [u8], body: &mut [u8], answer: &mut [u8]) -> u8 {
    let lengths = (image.len(), queue.len(), out.len(), body.len(), answer.len());
    let (image, queue, out) = (image.as_mut_ptr(), queue.as_mut_ptr(), out.as_mut_ptr());
    let (body, answer) = (body.as_mut_ptr(), answer.as_mut_ptr());
    unsafe { node_deliver(image, lengths.0, queue, lengths.1, out, lengths.2, body, lengths.3, answer, lengths.4) }
}

/// The start of a walk over a trail.
pub fn walk_start(file: &[u8], w: usize) -> Cursor {
    [file.len() as u64, w as u64, 0, 0, 0]
}

/// Writes one frame on behind the bytes in use: 19, then 3.
pub fn write(file: &mut [u8], used: &mut usize, frame: &[u8]) -> u8 {
    unsafe { trail_write(file.as_mut_ptr(), file.len(), used, frame.as_ptr(), frame.len()) }
}

/// One step of a walk from any five numbers: a frame and the next numbers, or the place 0, 0 and the numbers as they
/// were where nothing is left; or 19.
pub fn step(file: &[u8], cursor: &mut Cursor, shown: &mut Place) -> u8 {
    unsafe { trail_step(file.as_ptr(), file.len(), cursor.as_mut_ptr(), shown.as_mut_ptr()) }
}

/// The whole walk: the largest count, or 19.
pub fn walk(file: &[u8], w: usize, most: &mut usize) -> u8 {
    unsafe { trail_walk(file.as_ptr(), file.len(), w, most) }
}
