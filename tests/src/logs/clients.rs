//! The clients of a log: new ones, and such whose numbers are alike in their low bits. A library
//! that keeps a slot for each remainder of the client number by a power of two, or that cuts the
//! number, may take one of these for another.

use crate::model::record::Record;

/// A client above those of the log.
pub fn new_client(records: &[Record]) -> u16 {
    let clients = records.iter().map(|record| record.client);
    clients.max().map_or(0, |last| last + 1)
}

/// How far apart clients are numbered.
pub const DISTANCES: [u16; 3] = [1024, 4096, 16_384];

/// The records with other client numbers, and no two clients alike. The clients 0, 1, 2 and so on
/// come `distance` apart, which is a power of two, as far as 16 bits allow: 64 clients become
/// multiples of 1,024. Those behind them have the remainder 1 in the same way, then 2, and so on.
pub fn clients_apart(records: &[Record], distance: u16) -> Vec<Record> {
    assert!(distance.is_power_of_two());
    let bits = distance.trailing_zeros();
    let renumbered = |record: &Record| Record {
        client: record.client.rotate_left(bits),
        ..*record
    };
    records.iter().map(renumbered).collect()
}

#[cfg(test)]
mod tests {
    use super::clients_apart;
    use crate::logs::samples::pending_adds;

    #[test]
    fn the_first_clients_are_multiples_of_the_distance() {
        let clients = |distance| -> Vec<u16> {
            let records = clients_apart(&pending_adds(66), distance);
            records.iter().map(|record| record.client).collect()
        };
        assert_eq!(clients(1024)[..3], [0, 1024, 2048]);
        assert_eq!(clients(1024)[63..], [64_512, 1, 1025]);
        assert_eq!(clients(16_384)[..5], [0, 16_384, 32_768, 49_152, 1]);
    }
}
