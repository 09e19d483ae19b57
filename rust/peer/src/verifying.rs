//! Sheets from the partner desk (02, wish 12).

use crate::file::judge;
use crate::refusal::Refusal;

/// The offset, from 0, of the first byte in which a sheet is not the one that the list is judged
/// to; none if it is that sheet.
pub fn verify(file: &[u8], sheet: &[u8]) -> Result<Option<usize>, Refusal> {
    let mut judged = vec![0; sheet.len()];
    judge(file, &mut judged)?;
    Ok(judged.iter().zip(sheet).position(|(right, given)| right != given))
}
