//! What an adapter is set up with.

use crate::block;
use crate::places::SETUP_SIZE;
use std::error::Error;
use std::fmt;

/// The bytes of a setup block.
pub const BLOCK_SIZE: usize = SETUP_SIZE;

/// What an assembly carries.
#[derive(Clone, Copy, Debug, PartialEq, Eq, Hash)]
pub enum AssemblyKind {
    /// Produced to the scanner (T→O).
    Input,
    /// Consumed from the scanner (O→T).
    Output,
    /// Configuration data, sent with an open.
    Configuration,
}

impl AssemblyKind {
    /// Its number in the C interface.
    pub fn number(self) -> u8 {
        match self {
            AssemblyKind::Input => 1,
            AssemblyKind::Output => 2,
            AssemblyKind::Configuration => 3,
        }
    }
}

/// An assembly.
#[derive(Clone, Copy, Debug, PartialEq, Eq, Hash)]
pub struct Assembly {
    /// The instance (connection point): 1 to 65,535, each once.
    pub instance: u16,
    /// The size of its data in bytes: 0 to 512.
    pub size: u16,
    /// What it carries.
    pub kind: AssemblyKind,
}

impl Assembly {
    /// An input assembly (T→O).
    pub fn input(instance: u16, size: u16) -> Self {
        Assembly { instance, size, kind: AssemblyKind::Input }
    }

    /// An output assembly (O→T).
    pub fn output(instance: u16, size: u16) -> Self {
        Assembly { instance, size, kind: AssemblyKind::Output }
    }

    /// A configuration assembly. An open can fill it if its size is even and at most 500.
    pub fn configuration(instance: u16, size: u16) -> Self {
        Assembly { instance, size, kind: AssemblyKind::Configuration }
    }
}

/// How an adapter is set up. [`Setup::default`] has no assembly; everything else is as in ciplink.
///
/// ```
/// use threshtide::{Assembly, Setup};
///
/// let setup = Setup {
///     vendor: 0x04D2,
///     product_name: b"lane 4".to_vec(),
///     assemblies: vec![Assembly::input(100, 4), Assembly::output(150, 4)],
///     ..Setup::default()
/// };
/// assert_eq!(setup.fault(), None);
/// ```
#[derive(Clone, Debug, PartialEq, Eq)]
pub struct Setup {
    /// Vendor id of the Identity object and of electronic keys.
    pub vendor: u16,
    /// Device type.
    pub device_type: u16,
    /// Product code.
    pub product_code: u16,
    /// Major and minor revision.
    pub revision: (u8, u8),
    /// Serial number.
    pub serial: u32,
    /// Product name: up to 32 bytes.
    pub product_name: Vec<u8>,
    /// Up to 16 assemblies.
    pub assemblies: Vec<Assembly>,
    /// The O→T connection point of input-only connections.
    pub input_only_heartbeat: u32,
    /// The O→T connection point of listen-only connections.
    pub listen_only_heartbeat: u32,
    /// The shortest RPI accepted, in microseconds. Above the longest, every open is refused.
    pub rpi_min: u32,
    /// The longest RPI accepted, in microseconds.
    pub rpi_max: u32,
    /// A packet this many microseconds after its due time, or more, counts as late; 0 means 1,000.
    pub late_limit: u32,
    /// The most bytes of one EDS transfer: 1 to 255. ciplink's limit is 240.
    pub transfer_limit: u8,
    /// MAC address of the Ethernet Link object.
    pub mac: [u8; 6],
    /// The EDS that the File object gives: up to 65,535 bytes; None for no File object.
    pub eds: Option<Vec<u8>>,
    /// The EDS file name: up to 32 bytes.
    pub eds_name: Vec<u8>,
}

impl Default for Setup {
    fn default() -> Self {
        Setup {
            vendor: 0,
            device_type: 0x2B,
            product_code: 1,
            revision: (1, 1),
            serial: 0,
            product_name: b"threshtide".to_vec(),
            assemblies: Vec::new(),
            input_only_heartbeat: 238,
            listen_only_heartbeat: 237,
            rpi_min: 2_000,
            rpi_max: 3_200_000,
            late_limit: 0,
            transfer_limit: 240,
            mac: [0; 6],
            eds: None,
            eds_name: b"threshtide.eds".to_vec(),
        }
    }
}

/// The size that a setup is beyond (No. 2; docs/RULES.md, chapter 1).
#[derive(Clone, Copy, Debug, PartialEq, Eq, Hash)]
pub enum SetupError {
    /// More than 16 assemblies: so many.
    Assemblies(usize),
    /// An assembly of instance 0.
    InstanceZero,
    /// An instance that two assemblies have.
    InstanceTwice(u16),
    /// An assembly of more than 512 bytes.
    AssemblySize {
        /// Its instance.
        instance: u16,
        /// Its size.
        size: u16,
    },
    /// A product name of more than 32 bytes: so many.
    ProductName(usize),
    /// An EDS name of more than 32 bytes: so many.
    EdsName(usize),
    /// An EDS of more than 65,535 bytes: so many.
    Eds(usize),
    /// A transfer limit of 0.
    TransferLimit,
}

impl fmt::Display for SetupError {
    fn fmt(&self, f: &mut fmt::Formatter<'_>) -> fmt::Result {
        match self {
            SetupError::Assemblies(n) => write!(f, "{n} assemblies; at most 16 can be"),
            SetupError::InstanceZero => write!(f, "an assembly of instance 0; instances begin at 1"),
            SetupError::InstanceTwice(n) => write!(f, "two assemblies of instance {n}"),
            SetupError::AssemblySize { instance, size } => {
                write!(f, "assembly {instance} of {size} bytes; at most 512 can be")
            }
            SetupError::ProductName(n) => write!(f, "a product name of {n} bytes; at most 32 can be"),
            SetupError::EdsName(n) => write!(f, "an EDS name of {n} bytes; at most 32 can be"),
            SetupError::Eds(n) => write!(f, "an EDS of {n} bytes; at most 65,535 can be"),
            SetupError::TransferLimit => write!(f, "a transfer limit of 0; it is 1 to 255"),
        }
    }
}

impl Error for SetupError {}

impl Setup {
    /// The first size that the setup is beyond, if any. The library decides the same by itself, and says No. 2.
    pub fn fault(&self) -> Option<SetupError> {
        let sizes = [
            (self.assemblies.len() > 16, SetupError::Assemblies(self.assemblies.len())),
            (self.product_name.len() > 32, SetupError::ProductName(self.product_name.len())),
            (self.eds_name.len() > 32, SetupError::EdsName(self.eds_name.len())),
            (self.transfer_limit == 0, SetupError::TransferLimit),
        ];
        if let Some((_, error)) = sizes.iter().find(|(beyond, _)| *beyond) {
            return Some(*error);
        }
        if let Some(eds) = self.eds.as_ref().filter(|eds| eds.len() > 65_535) {
            return Some(SetupError::Eds(eds.len()));
        }
        self.assemblies.iter().enumerate().find_map(|(i, a)| {
            let earlier = self.assemblies[..i].iter().any(|b| b.instance == a.instance);
            match a {
                _ if a.instance == 0 => Some(SetupError::InstanceZero),
                _ if earlier => Some(SetupError::InstanceTwice(a.instance)),
                _ if a.size > 512 => Some(SetupError::AssemblySize { instance: a.instance, size: a.size }),
                _ => None,
            }
        })
    }

    /// The setup block of the C interface; an error for what a block cannot say.
    pub fn block(&self) -> Result<[u8; BLOCK_SIZE], SetupError> {
        let (count, name, eds_name) = (self.assemblies.len(), self.product_name.len(), self.eds_name.len());
        if count > 16 {
            return Err(SetupError::Assemblies(count));
        }
        if name > 32 {
            return Err(SetupError::ProductName(name));
        }
        if eds_name > 32 {
            return Err(SetupError::EdsName(eds_name));
        }
        let mut out = [0; BLOCK_SIZE];
        let mut put = |at: usize, bytes: &[u8]| out[at..at + bytes.len()].copy_from_slice(bytes);
        put(block::ASSEMBLIES, &[count as u8]);
        put(block::TRANSFER_LIMIT, &[self.transfer_limit]);
        put(block::NAME_LENGTH, &[name as u8]);
        put(block::EDS_NAME_LENGTH, &[eds_name as u8]);
        put(block::EDS, &u32::from(self.eds.is_some()).to_le_bytes());
        put(block::VENDOR, &self.vendor.to_le_bytes());
        put(block::DEVICE_TYPE, &self.device_type.to_le_bytes());
        put(block::PRODUCT_CODE, &self.product_code.to_le_bytes());
        put(block::MAJOR, &[self.revision.0]);
        put(block::MINOR, &[self.revision.1]);
        put(block::SERIAL, &self.serial.to_le_bytes());
        put(block::INPUT_ONLY, &self.input_only_heartbeat.to_le_bytes());
        put(block::LISTEN_ONLY, &self.listen_only_heartbeat.to_le_bytes());
        put(block::RPI_MIN, &self.rpi_min.to_le_bytes());
        put(block::RPI_MAX, &self.rpi_max.to_le_bytes());
        put(block::LATE_LIMIT, &self.late_limit.to_le_bytes());
        put(block::MAC, &self.mac);
        put(block::NAME, &self.product_name);
        put(block::EDS_NAME, &self.eds_name);
        for (i, a) in self.assemblies.iter().enumerate() {
            put(block::instance(i), &a.instance.to_le_bytes());
            put(block::size(i), &a.size.to_le_bytes());
            put(block::kind(i), &[a.kind.number()]);
        }
        Ok(out)
    }
}
