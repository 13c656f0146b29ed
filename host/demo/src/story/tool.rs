//! A configuration tool: it reads every attribute of the five objects, and the EDS from the device.

use super::originator::Originator;
use super::{Failure, MASK, Stage};
use crate::cip;
use crate::lane;
use std::net::Ipv4Addr;

const INITIATE_UPLOAD: u8 = 0x4B;
const UPLOAD_TRANSFER: u8 = 0x4F;
const FILE: u8 = 0x37;
const EDS: u8 = 0xC8;
/// How many bytes of the EDS the tool asks for at once.
const WANTED: u8 = 200;

/// An attribute: class, instance and number; the value it must have; and what tshark calls that value, field by field.
struct Attribute {
    place: (u8, u8, u8),
    value: Vec<u8>,
    read: Vec<String>,
}

fn attribute(class: u8, instance: u8, number: u8, value: impl Into<Vec<u8>>, read: &[&dyn ToString]) -> Attribute {
    Attribute {
        place: (class, instance, number),
        value: value.into(),
        read: read.iter().map(|word| word.to_string()).collect(),
    }
}

fn hex(bytes: &[u8]) -> String {
    bytes.iter().map(|byte| format!("{byte:02x}")).collect()
}

/// One that tshark shows as bytes.
fn plain(class: u8, instance: u8, number: u8, value: impl Into<Vec<u8>>) -> Attribute {
    let value = value.into();
    let read = hex(&value);
    attribute(class, instance, number, value, &[&read])
}

/// A text of the File object: the language tag, a length and the text.
fn tagged(text: &[u8]) -> Vec<u8> {
    let tag = [1, b'e', b'n', b'g', 0xDA, 4, 0, text.len() as u8];
    [&tag, text].concat()
}

fn checksum(bytes: &[u8]) -> u16 {
    0u16.wrapping_sub(bytes.iter().fold(0, |sum, byte| sum.wrapping_add(u16::from(*byte))))
}

/// Every attribute of the five objects while no connection is open.
fn attributes(address: Ipv4Addr, mask: Ipv4Addr) -> Vec<Attribute> {
    let s = lane::setup();
    let eds = s.eds.clone().unwrap_or_default();
    let name = [&[s.product_name.len() as u8][..], &s.product_name].concat();
    let little = |a: Ipv4Addr| u32::from(a).to_le_bytes();
    let network = [&little(address)[..], &little(mask), &[0; 14]].concat();
    let mac: Vec<String> = s.mac.iter().map(|byte| format!("{byte:02x}")).collect();
    let text = |bytes: &[u8]| String::from_utf8_lossy(bytes).into_owned();
    let revision = [s.revision.0, s.revision.1];
    let mut all = vec![
        attribute(0x01, 1, 1, s.vendor.to_le_bytes(), &[&format!("0x{:04x}", s.vendor)]),
        attribute(0x01, 1, 2, s.device_type.to_le_bytes(), &[&format!("0x{:04x}", s.device_type)]),
        attribute(0x01, 1, 3, s.product_code.to_le_bytes(), &[&s.product_code]),
        attribute(0x01, 1, 4, revision, &[&s.revision.0, &s.revision.1]),
        attribute(0x01, 1, 5, [0x30, 0], &[&"0x0030"]),
        attribute(0x01, 1, 6, s.serial.to_le_bytes(), &[&format!("0x{:08x}", s.serial)]),
        attribute(0x01, 1, 7, name, &[&text(&s.product_name)]),
        attribute(0x01, 1, 8, [3], &[&"0x03"]),
        attribute(0x04, 0, 1, [2, 0], &[&2]),
        attribute(0x04, 0, 2, lane::CONFIGURATION.to_le_bytes(), &[&lane::CONFIGURATION]),
        attribute(0xF5, 1, 1, [1, 0, 0, 0], &[&"0x00000001"]),
        attribute(0xF5, 1, 2, [0; 4], &[&"0x00000000"]),
        attribute(0xF5, 1, 3, [0; 4], &[&"0x00000000"]),
        attribute(0xF5, 1, 4, [2, 0, 0x20, 0xF6, 0x24, 1], &[]),
        attribute(0xF5, 1, 5, network, &[&address, &mask, &"0.0.0.0"]),
        attribute(0xF5, 1, 6, [0; 2], &[]),
        attribute(0xF6, 1, 1, 100u32.to_le_bytes(), &[&100]),
        attribute(0xF6, 1, 2, 15u32.to_le_bytes(), &[&"0x0000000f"]),
        attribute(0xF6, 1, 3, s.mac, &[&mac.join(":")]),
        plain(FILE, EDS, 1, [2]),
        plain(FILE, EDS, 2, tagged(b"EDS and Icon Files")),
        plain(FILE, EDS, 3, [1, 0]),
        attribute(FILE, EDS, 4, tagged(&s.eds_name), &[&"eng", &text(&s.eds_name)]),
        plain(FILE, EDS, 5, revision),
        plain(FILE, EDS, 6, (eds.len() as u32).to_le_bytes()),
        plain(FILE, EDS, 7, checksum(&eds).to_le_bytes()),
        plain(FILE, EDS, 8, [0]),
        plain(FILE, EDS, 9, [0]),
        plain(FILE, EDS, 10, [1]),
        plain(FILE, EDS, 11, [0]),
    ];
    for class in [0x01, 0xF5, 0xF6, FILE] {
        all.extend((1..=3).map(|number| attribute(class, 0, number, [1, 0], &[&1])));
    }
    for (instance, size) in [
        (lane::INPUT, lane::INPUT_SIZE),
        (lane::OUTPUT, lane::OUTPUT_SIZE),
        (lane::CONFIGURATION, lane::CONFIGURATION_SIZE),
    ] {
        all.push(plain(0x04, instance as u8, 3, vec![0; usize::from(size)]));
        all.push(plain(0x04, instance as u8, 4, size.to_le_bytes()));
    }
    all
}

/// Reads them all, each as it must be.
fn reads(stage: &Stage, tool: &mut Originator) -> Result<(), Failure> {
    let attributes = attributes(*stage.target.ip(), MASK);
    let mut held = true;
    for Attribute { place: (class, instance, number), value, read } in &attributes {
        let found = tool.attribute(*class, *instance, *number)?;
        stage.notes.said.attribute(tool.address(), cip::GET_SINGLE, (*class, *instance, Some(*number)), read);
        held &= stage.check(
            found == *value,
            format!(
                "attribute {number} of class 0x{class:02X}, instance {instance}, is {}, not {}",
                hex(value),
                hex(&found)
            ),
        );
    }
    if held {
        stage.say(
            "tool",
            format!("reads the {} attributes of the five objects, each as it was set up", attributes.len()),
        );
    }
    Ok(())
}

/// Uploads the EDS, one transfer asked for twice.
fn uploads(stage: &Stage, tool: &mut Originator) -> Result<(), Failure> {
    let eds = lane::setup().eds.unwrap_or_default();
    let begun = tool.service(INITIATE_UPLOAD, FILE, EDS, &[WANTED])?;
    stage.notes.said.attribute(tool.address(), INITIATE_UPLOAD, (FILE, EDS, None), &[hex(&begun)]);
    let expected = [&(eds.len() as u32).to_le_bytes()[..], &[WANTED]].concat();
    stage.check(begun == expected, "the upload begins: the EDS's length, and the size agreed");
    let mut got: Vec<u8> = Vec::new();
    for (number, part) in (0u8..).zip(eds.chunks(usize::from(WANTED))) {
        for again in [false, true] {
            if again && number != 1 {
                continue;
            }
            let data = tool.service(UPLOAD_TRANSFER, FILE, EDS, &[number])?;
            stage.notes.said.attribute(tool.address(), UPLOAD_TRANSFER, (FILE, EDS, None), &[hex(&data)]);
            stage.check(
                data[0] == number && data[2..2 + part.len()] == *part,
                format!("transfer {number} has its part of the EDS"),
            );
            if !again {
                got.extend(&data[2..]);
            }
        }
    }
    let whole = [&eds[..], &checksum(&eds).to_le_bytes()].concat();
    if stage.check(got == whole, "the transfers make up the EDS and its checksum") {
        stage.say("tool", format!("uploads the EDS, {} bytes and a checksum, one transfer of them twice", eds.len()));
    }
    Ok(())
}

pub(super) fn visits(stage: &Stage) -> Result<(), Failure> {
    let mut tool = Originator::connect(stage.target, &stage.notes.said)?;
    reads(stage, &mut tool)?;
    uploads(stage, &mut tool)?;
    let (reply, _) = tool.send(&cip::get_single(0x64, 1, 1), None)?;
    stage.check(reply.general == 0x05, "a class that is not here is answered 0x05");
    tool.leave()?;
    Ok(())
}
