// Lent buffers: what a call writes goes to the first places, and nothing beyond is touched.

use crate::refusals::{self, Refusal};

/// Writes a part to the first places of a buffer: 14 if it has fewer, and then nothing is written.
pub fn put<T: Copy>(part: &[T], out: &mut [T]) -> Result<(), Refusal> {
    let room = out.get_mut(..part.len()).ok_or(refusals::BUFFER)?;
    room.copy_from_slice(part);
    Ok(())
}

#[cfg(test)]
mod tests {
    use super::*;

    #[test]
    fn too_short_exact_and_longer() {
        let mut out = [7; 4];
        assert_eq!(put(&[1; 5], &mut out), Err(refusals::BUFFER));
        assert_eq!(put(&[1; 4], &mut out[..3]), Err(refusals::BUFFER));
        assert_eq!(out, [7; 4]);
        assert_eq!(put(&[1, 2], &mut out), Ok(()));
        assert_eq!(out, [1, 2, 7, 7]);
        assert_eq!(put(&[3, 4, 5, 6], &mut out), Ok(()));
        assert_eq!(out, [3, 4, 5, 6]);
        assert_eq!(put::<u16>(&[], &mut []), Ok(()));
    }
}
