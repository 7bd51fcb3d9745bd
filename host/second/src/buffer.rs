//! Buffers that a caller lends.

/// Puts the content at the front of the buffer and gives its length. Where the buffer is too short nothing changes, and
/// what it holds past the content always stays.
pub(crate) fn put_in_front<T: Copy>(content: &[T], buffer: &mut [T]) -> Option<usize> {
    let front = buffer.get_mut(..content.len())?;
    front.copy_from_slice(content);
    Some(content.len())
}
