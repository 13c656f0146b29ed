//! Encapsulation (CIP volume 2, chapter 2): a header of 24 bytes, then data. Both halves of it: what a device answers and
//! what an originator sends.

use std::io::{self, Read};

/// The size of the header.
pub const HEADER: usize = 24;

/// No operation: never answered.
pub const NOP: u16 = 0x0000;
/// What a device can do.
pub const LIST_SERVICES: u16 = 0x0004;
/// What a device is.
pub const LIST_IDENTITY: u16 = 0x0063;
/// Interfaces apart from CIP.
pub const LIST_INTERFACES: u16 = 0x0064;
/// Begins a session.
pub const REGISTER_SESSION: u16 = 0x0065;
/// Ends a session.
pub const UNREGISTER_SESSION: u16 = 0x0066;
/// An unconnected message.
pub const SEND_RR_DATA: u16 = 0x006F;

/// Status: the device does not know the command.
pub const INVALID_COMMAND: u32 = 0x01;
/// Status: the data is not as the command wants it.
pub const BAD_DATA: u32 = 0x03;
/// Status: no such session.
pub const INVALID_SESSION: u32 = 0x64;
/// Status: the data is not as long as the command wants it.
pub const INVALID_LENGTH: u32 = 0x65;
/// Status: not protocol version 1.
pub const UNSUPPORTED_VERSION: u32 = 0x69;

/// A command or its answer.
#[derive(Clone, Debug, PartialEq, Eq)]
pub struct Frame {
    /// What is asked for.
    pub command: u16,
    /// The session's handle; 0 outside a session.
    pub session: u32,
    /// 0 in a command and in an answer that is a yes.
    pub status: u32,
    /// The sender's own bytes, which the answer repeats.
    pub context: [u8; 8],
    /// What follows the header.
    pub data: Vec<u8>,
}

impl Frame {
    /// A command.
    pub fn command(command: u16, session: u32, data: Vec<u8>) -> Frame {
        Frame { command, session, status: 0, context: [0; 8], data }
    }

    /// The answer to this command.
    pub fn answer(&self, status: u32, data: Vec<u8>) -> Frame {
        Frame { status, data, ..self.clone() }
    }

    /// Its bytes. The data has at most 65,535 of them.
    pub fn bytes(&self) -> Vec<u8> {
        let length = u16::try_from(self.data.len()).expect("data that a length of 16 bits can tell");
        let mut out = Vec::with_capacity(HEADER + self.data.len());
        out.extend(self.command.to_le_bytes());
        out.extend(length.to_le_bytes());
        out.extend(self.session.to_le_bytes());
        out.extend(self.status.to_le_bytes());
        out.extend(self.context);
        out.extend([0; 4]); // options
        out.extend(&self.data);
        out
    }

    /// The frame that a datagram holds; None if it is cut short. Bytes behind the data are not read.
    pub fn of_datagram(bytes: &[u8]) -> Option<Frame> {
        let (header, rest) = bytes.split_first_chunk::<HEADER>()?;
        let mut frame = of_header(header);
        frame.data = rest.get(..data_length(header))?.to_vec();
        Some(frame)
    }

    /// The next frame of a stream; None where the stream ends between two frames.
    pub fn of_stream(stream: &mut impl Read) -> io::Result<Option<Frame>> {
        let mut header = [0; HEADER];
        if !filled(stream, &mut header)? {
            return Ok(None);
        }
        let mut frame = of_header(&header);
        frame.data = vec![0; data_length(&header)];
        stream.read_exact(&mut frame.data)?;
        Ok(Some(frame))
    }
}

/// Fills the buffer; false where the stream ended before its first byte.
fn filled(stream: &mut impl Read, buffer: &mut [u8]) -> io::Result<bool> {
    let got = loop {
        match stream.read(buffer) {
            Err(error) if error.kind() == io::ErrorKind::Interrupted => {}
            result => break result?,
        }
    };
    if got == 0 {
        return Ok(false);
    }
    stream.read_exact(&mut buffer[got..])?;
    Ok(true)
}

fn data_length(header: &[u8; HEADER]) -> usize {
    usize::from(u16::from_le_bytes([header[2], header[3]]))
}

fn of_header(h: &[u8; HEADER]) -> Frame {
    Frame {
        command: u16::from_le_bytes([h[0], h[1]]),
        session: u32::from_le_bytes([h[4], h[5], h[6], h[7]]),
        status: u32::from_le_bytes([h[8], h[9], h[10], h[11]]),
        context: [h[12], h[13], h[14], h[15], h[16], h[17], h[18], h[19]],
        data: Vec::new(),
    }
}

#[cfg(test)]
mod tests {
    use super::*;

    // RegisterSession as the volume prints it, with a context of its own
    const REGISTER: [u8; 28] = [
        0x65, 0, 4, 0, 0, 0, 0, 0, 0, 0, 0, 0, 1, 2, 3, 4, 5, 6, 7, 8, 0, 0, 0, 0, //
        1, 0, 0, 0,
    ];

    fn register() -> Frame {
        Frame { context: [1, 2, 3, 4, 5, 6, 7, 8], ..Frame::command(REGISTER_SESSION, 0, vec![1, 0, 0, 0]) }
    }

    #[test]
    fn writes_the_fixed_bytes() {
        assert_eq!(register().bytes(), REGISTER);
    }

    #[test]
    fn reads_what_it_writes() {
        assert_eq!(Frame::of_datagram(&REGISTER), Some(register()));
        let answer = Frame { session: 0xA1B2_C3D4, ..register().answer(INVALID_SESSION, vec![9; 300]) };
        assert_eq!(Frame::of_datagram(&answer.bytes()), Some(answer));
    }

    #[test]
    fn a_datagram_cut_short_is_none() {
        for length in 0..REGISTER.len() {
            assert_eq!(Frame::of_datagram(&REGISTER[..length]), None, "{length} bytes");
        }
    }

    #[test]
    fn a_stream_gives_frames_and_then_its_end() {
        let mut bytes = REGISTER.to_vec();
        bytes.extend(Frame::command(NOP, 7, Vec::new()).bytes());
        let mut stream = &bytes[..];
        assert_eq!(Frame::of_stream(&mut stream).unwrap(), Some(register()));
        assert_eq!(Frame::of_stream(&mut stream).unwrap(), Some(Frame::command(NOP, 7, Vec::new())));
        assert_eq!(Frame::of_stream(&mut stream).unwrap(), None);
    }

    #[test]
    fn a_stream_that_ends_inside_a_frame_is_an_error() {
        for length in 1..REGISTER.len() {
            assert!(Frame::of_stream(&mut &REGISTER[..length]).is_err(), "{length} bytes");
        }
    }

    #[test]
    fn the_answer_keeps_command_session_and_context() {
        let answer = register().answer(UNSUPPORTED_VERSION, vec![2]);
        assert_eq!((answer.command, answer.context, answer.status), (REGISTER_SESSION, [1, 2, 3, 4, 5, 6, 7, 8], 0x69));
    }
}
