// ---- Not ciplink's: what the comparison reads of the fields that are private to this file.

impl Ctx {
    /// The upload under way: transfer size, next number, next offset, and the last transfer's number and offset.
    pub(crate) fn position(&self) -> Option<(usize, u8, usize, Option<(u8, usize)>)> {
        self.upload.as_ref().map(|u| (u.size, u.next, u.offset, u.last))
    }
}
