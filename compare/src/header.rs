//! A record header as crashlog.h has it.

pub const STATUSES: usize = 127;

/// Bytes of the fields in order, without the padding at the struct's end.
pub const FIELD_BYTES: usize = 564;

pub const LEGACY_SERVER: u8 = 7;
pub const LEGACY_GPU: u8 = 8;

#[repr(C)]
#[derive(Clone, Copy, Debug, PartialEq, Eq)]
pub struct Header {
    pub timestamp: u64,
    pub revision: u32,
    pub product_id: u32,
    pub agent_version: u32,
    pub reason: u32,
    pub completion_status: u32,
    pub error_status: u32,
    pub whoami: u32,
    pub misc: u32,
    pub header_type: u16,
    pub record_size: u16,
    pub extended_record_size: u16,
    pub completion_status_size: u16,
    pub record_type: u8,
    pub cldic: u8,
    pub consumed: u8,
    pub layout: u8,
    pub die_id: u8,
    pub socket_id: u8,
    pub collection_complete: u8,
    pub reserved: u8,
    pub completion_statuses: [u32; STATUSES],
}

impl Header {
    pub const ZERO: Header = Header {
        timestamp: 0,
        revision: 0,
        product_id: 0,
        agent_version: 0,
        reason: 0,
        completion_status: 0,
        error_status: 0,
        whoami: 0,
        misc: 0,
        header_type: 0,
        record_size: 0,
        extended_record_size: 0,
        completion_status_size: 0,
        record_type: 0,
        cldic: 0,
        consumed: 0,
        layout: 0,
        die_id: 0,
        socket_id: 0,
        collection_complete: 0,
        reserved: 0,
        completion_statuses: [0; STATUSES],
    };

    /// The fields in order, little-endian.
    pub fn to_bytes(&self) -> Vec<u8> {
        let words = [
            self.revision,
            self.product_id,
            self.agent_version,
            self.reason,
            self.completion_status,
            self.error_status,
            self.whoami,
            self.misc,
        ];
        let halves = [self.header_type, self.record_size, self.extended_record_size, self.completion_status_size];
        let mut bytes = self.timestamp.to_le_bytes().to_vec();
        bytes.extend(words.iter().flat_map(|word| word.to_le_bytes()));
        bytes.extend(halves.iter().flat_map(|half| half.to_le_bytes()));
        bytes.extend([self.record_type, self.cldic, self.consumed, self.layout]);
        bytes.extend([self.die_id, self.socket_id, self.collection_complete, self.reserved]);
        bytes.extend(self.completion_statuses.iter().flat_map(|word| word.to_le_bytes()));
        bytes
    }

    /// The header of those bytes.
    pub fn from_bytes(bytes: &[u8]) -> Header {
        let word = |at: usize| u32::from_le_bytes(bytes[at..at + 4].try_into().unwrap());
        let half = |at: usize| u16::from_le_bytes(bytes[at..at + 2].try_into().unwrap());
        Header {
            timestamp: u64::from_le_bytes(bytes[..8].try_into().unwrap()),
            revision: word(8),
            product_id: word(12),
            agent_version: word(16),
            reason: word(20),
            completion_status: word(24),
            error_status: word(28),
            whoami: word(32),
            misc: word(36),
            header_type: half(40),
            record_size: half(42),
            extended_record_size: half(44),
            completion_status_size: half(46),
            record_type: bytes[48],
            cldic: bytes[49],
            consumed: bytes[50],
            layout: bytes[51],
            die_id: bytes[52],
            socket_id: bytes[53],
            collection_complete: bytes[54],
            reserved: bytes[55],
            completion_statuses: std::array::from_fn(|at| word(56 + 4 * at)),
        }
    }

    pub fn version_word(&self) -> u32 {
        self.revision
            | (self.header_type as u32) << 8
            | self.product_id << 12
            | (self.record_type as u32) << 24
            | (self.cldic as u32) << 30
            | (self.consumed as u32) << 31
    }
}
