//! The fields of a packed file, each judged as it is read.

use reference::refusal::Refusal;

use crate::packed::refused::RefusedFile;
use crate::wording;

/// The file, and where its next field begins.
pub struct Fields<'file> {
    pub file: &'file [u8],
    pub offset: usize,
}

impl Fields<'_> {
    /// The next field's value and its offset; little-endian.
    fn field(&mut self, what: &str, width: usize) -> Result<(u64, usize), RefusedFile> {
        let offset = self.offset;
        let rest = self.file.get(offset..).unwrap_or_default();
        let Some(field) = rest.get(..width) else {
            let (needed, there) = (wording::counted(width, "byte"), rest.len());
            let reason = format!("{what}, offset {offset}: {needed} needed, {there} there");
            return Err(RefusedFile::new(Refusal::Cut, reason));
        };
        self.offset += width;
        Ok((field.iter().rev().fold(0, |value, &byte| value << 8 | u64::from(byte)), offset))
    }

    pub fn count(
        &mut self,
        section: &str,
        width: usize,
        [least, most]: [usize; 2],
        why: &str,
    ) -> Result<usize, RefusedFile> {
        let limits = [least as u64, most as u64];
        let what = format!("{section}, count");
        self.within(&what, width, limits, why, Refusal::WrongCount).map(|count| count as usize)
    }

    pub fn value(
        &mut self,
        what: &str,
        width: usize,
        limits: [u64; 2],
    ) -> Result<u64, RefusedFile> {
        self.within(what, width, limits, "", Refusal::OutOfRange)
    }

    fn within(
        &mut self,
        what: &str,
        width: usize,
        [least, most]: [u64; 2],
        why: &str,
        refusal: Refusal,
    ) -> Result<u64, RefusedFile> {
        let (value, offset) = self.field(what, width)?;
        if (least..=most).contains(&value) {
            return Ok(value);
        }
        let must = wording::range(least, most);
        let reason = format!("{what}, offset {offset}, value {value}: must be {must}{why}");
        Err(RefusedFile::new(refusal, reason))
    }

    pub fn flag(&mut self, what: &str) -> Result<(), RefusedFile> {
        self.value(what, 1, [0, 1]).map(|_| ())
    }

    /// The number of one of so many.
    pub fn number(&mut self, what: &str, count: usize) -> Result<usize, RefusedFile> {
        self.value(what, 1, [0, count as u64 - 1]).map(|number| number as usize)
    }

    /// Nothing may be left.
    pub fn end(&self) -> Result<(), RefusedFile> {
        match self.file.len() - self.offset {
            0 => Ok(()),
            more => {
                let follow = if more == 1 { "follows" } else { "follow" };
                let bytes = wording::counted(more, "byte");
                let reason = format!("behind Delivery, offset {}: {bytes} {follow}", self.offset);
                Err(RefusedFile::new(Refusal::BytesFollow, reason))
            }
        }
    }
}
