//! Class 1 I/O frames, as an originator reads and writes them: a sequenced address item and a connected data item that
//! begins with the CIP sequence. O→T data of an owner begins with a 32-bit header whose bit 0 is run.

use crate::cpf;

/// An I/O frame.
#[derive(Clone, Debug, PartialEq, Eq)]
pub struct IoFrame {
    /// The connection's id in the direction of the frame.
    pub id: u32,
    /// The frame's sequence.
    pub sequence: u32,
    /// The data's sequence.
    pub cip_sequence: u16,
    /// What follows the CIP sequence, a header included.
    pub data: Vec<u8>,
}

impl IoFrame {
    /// The UDP payload.
    pub fn bytes(&self) -> Vec<u8> {
        let address = [self.id.to_le_bytes(), self.sequence.to_le_bytes()].concat();
        let data = [&self.cip_sequence.to_le_bytes()[..], &self.data].concat();
        cpf::write(&[(cpf::SEQUENCED_ADDRESS, &address), (cpf::CONNECTED_DATA, &data)])
    }

    /// The frame of a UDP payload; None unless it is those two items.
    pub fn read(payload: &[u8]) -> Option<IoFrame> {
        let items = cpf::read(payload)?;
        let [(cpf::SEQUENCED_ADDRESS, address), (cpf::CONNECTED_DATA, data)] = items[..] else {
            return None;
        };
        let (id, sequence) = address.split_first_chunk::<4>()?;
        let (cip_sequence, data) = data.split_first_chunk::<2>()?;
        Some(IoFrame {
            id: u32::from_le_bytes(*id),
            sequence: u32::from_le_bytes(sequence.try_into().ok()?),
            cip_sequence: u16::from_le_bytes(*cip_sequence),
            data: data.to_vec(),
        })
    }
}

/// An owner's data behind its header.
pub fn with_header(run: bool, data: &[u8]) -> Vec<u8> {
    [&u32::from(run).to_le_bytes()[..], data].concat()
}

#[cfg(test)]
mod tests {
    use super::*;

    // the frame of the safe crate's first example
    const FRAME: [u8; 26] = [
        2, 0, 0x02, 0x80, 8, 0, 0x44, 0x33, 0x22, 0x11, 1, 0, 0, 0, //
        0xB1, 0, 8, 0, 7, 0, 1, 0, 0, 0, 0xCA, 0xFE,
    ];

    #[test]
    fn writes_and_reads_the_fixed_bytes() {
        let frame = IoFrame { id: 0x1122_3344, sequence: 1, cip_sequence: 7, data: with_header(true, &[0xCA, 0xFE]) };
        assert_eq!(frame.bytes(), FRAME);
        assert_eq!(IoFrame::read(&FRAME), Some(frame));
    }

    #[test]
    fn another_form_is_none() {
        for length in 0..FRAME.len() {
            assert_eq!(IoFrame::read(&FRAME[..length]), None, "{length} bytes");
        }
        let mut other = FRAME;
        other[2] = 0x01;
        assert_eq!(IoFrame::read(&other), None);
    }

    #[test]
    fn the_header_has_run_in_bit_0() {
        assert_eq!(with_header(true, &[9]), [1, 0, 0, 0, 9]);
        assert_eq!(with_header(false, &[9]), [0, 0, 0, 0, 9]);
    }
}
