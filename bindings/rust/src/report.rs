//! A report on a feed.
use crate::calls::REPORT;
use crate::form::record;

record!(
    /// The overlay's version, and of a feed how many trips it has and its last header timestamp: 0 and none where the
    /// feed is unknown.
    Report { version: u64, trip_update_count: u64, header_timestamp: Option<i64> }
);

impl Report {
    /// From the call's bytes: numbers of eight bytes, low first.
    pub fn of_bytes(bytes: &[u8; REPORT]) -> Report {
        let number = |from: usize| u64::from_le_bytes(bytes[from..from + 8].try_into().expect("eight bytes"));
        Report {
            version: number(0),
            trip_update_count: number(8),
            header_timestamp: (bytes[16] == 1).then(|| number(17).cast_signed()),
        }
    }

    pub fn to_bytes(&self) -> [u8; REPORT] {
        let mut bytes = [0; REPORT];
        bytes[..8].copy_from_slice(&self.version.to_le_bytes());
        bytes[8..16].copy_from_slice(&self.trip_update_count.to_le_bytes());
        if let Some(timestamp) = self.header_timestamp {
            bytes[16] = 1;
            bytes[17..].copy_from_slice(&timestamp.to_le_bytes());
        }
        bytes
    }
}
