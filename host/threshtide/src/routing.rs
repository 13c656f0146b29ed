//! What a path or a message says, for a host that has to route it.

use crate::answer::{No, read};
use crate::records::{u16_at, u32_at};
use crate::sys;
use std::ops::Range;

/// An electronic key.
#[derive(Clone, Copy, Debug, PartialEq, Eq, Hash)]
pub struct Key {
    /// Vendor id, 0 for any.
    pub vendor: u16,
    /// Device type, 0 for any.
    pub device_type: u16,
    /// Product code, 0 for any.
    pub product_code: u16,
    /// Major revision, with the compatibility bit 0x80.
    pub major: u8,
    /// Minor revision.
    pub minor: u8,
}

/// What an open reads of its path.
#[derive(Clone, Debug, PartialEq, Eq, Hash)]
pub struct ConnectionPath {
    /// A port or attribute segment bars an open.
    pub barred: bool,
    /// The last key.
    pub key: Option<Key>,
    /// The last class.
    pub class: Option<u32>,
    /// The first three instances and points, in the path's order.
    pub numbers: Vec<u32>,
    /// There are more than three.
    pub more: bool,
    /// Where the last data segment's bytes lie in the path; empty if there is none, or if it is empty.
    pub data: Range<usize>,
}

/// Reads a path on its own. [`No::Parse`].
///
/// ```
/// // class 4, instance 5, points 100 and 101
/// let path = threshtide::read_path(&[0x20, 4, 0x24, 5, 0x2C, 100, 0x2C, 101])?;
/// assert_eq!((path.class, &path.numbers[..]), (Some(4), &[5, 100, 101][..]));
/// assert_eq!(threshtide::read_path(&[0x20]), Err(threshtide::No::Parse));
/// # Ok::<(), threshtide::No>(())
/// ```
pub fn read_path(path: &[u8]) -> Result<ConnectionPath, No> {
    let mut r = [0; 32];
    // SAFETY: pointer and length are of one slice each, and `r` is lent to nobody else.
    let answer = unsafe { sys::threshtide_path(path.as_ptr(), path.len(), r.as_mut_ptr(), r.len()) };
    read(answer)?;
    let start = usize::from(u16_at(&r, 28));
    Ok(ConnectionPath {
        barred: r[0] == 1,
        key: (r[1] == 1).then(|| Key {
            vendor: u16_at(&r, 4),
            device_type: u16_at(&r, 6),
            product_code: u16_at(&r, 8),
            major: r[10],
            minor: r[11],
        }),
        class: (r[2] == 1).then(|| u32_at(&r, 12)),
        numbers: (0..usize::from(r[3]).min(3)).map(|i| u32_at(&r, 16 + 4 * i)).collect(),
        more: r[3] > 3,
        data: start..start + usize::from(u16_at(&r, 30)),
    })
}

/// What a message asks for.
#[derive(Clone, Debug, PartialEq, Eq, Hash)]
pub struct Request {
    /// The service.
    pub service: u8,
    /// The class and instance that its path names; instance 0 is the class itself.
    pub object: Option<(u32, u32)>,
    /// The first attribute that its path names.
    pub attribute: Option<u32>,
    /// Where the service's data begins in the message.
    pub data_start: usize,
}

impl Request {
    /// The message goes to the Connection Manager: opens and closes do.
    pub fn is_for_the_connection_manager(&self) -> bool {
        self.object == Some((0x06, 1))
    }
}

/// Reads a message without answering it. [`No::Parse`].
///
/// ```
/// // Forward Open to the Connection Manager, with two bytes of data
/// let request = threshtide::read_request(&[0x54, 2, 0x20, 0x06, 0x24, 0x01, 0x0A, 0x0E])?;
/// assert!(request.is_for_the_connection_manager());
/// assert_eq!((request.service, request.attribute, request.data_start), (0x54, None, 6));
/// # Ok::<(), threshtide::No>(())
/// ```
pub fn read_request(message: &[u8]) -> Result<Request, No> {
    let mut r = [0; 20];
    // SAFETY: as in `read_path`.
    let answer = unsafe { sys::threshtide_request(message.as_ptr(), message.len(), r.as_mut_ptr(), r.len()) };
    read(answer)?;
    Ok(Request {
        service: r[0],
        object: (r[1] == 1).then(|| (u32_at(&r, 4), u32_at(&r, 8))),
        attribute: (r[2] == 1).then(|| u32_at(&r, 12)),
        data_start: u32_at(&r, 16) as usize,
    })
}
