//! Values and clients that share slots of the library's maps. One hashes a key to one of 512 slots
//! (`crates/map/src/map.rt`), the other, in which the reader keeps clients, to one of 1,024
//! (`crates/map/src/narrow.rt`). Both search the keys of a slot one after the other. One that takes a
//! key for another of its slot, or leaves some of them out, answers wrongly on these logs.

use std::collections::HashMap;

use crate::model::reader::MAX_RECORDS;
use crate::model::record::Record;

/// The slot of a key, by the map's formula.
fn slot_of(key: u32) -> u64 {
    u64::from(key) * 2_654_435_761 / 8_388_608 % 512
}

/// The slot of a client in the reader's map, by that map's formula.
fn narrow_slot_of(client: u16) -> u16 {
    (client / 1024 + client % 1024) % 1024
}

/// Values and clients in the order in which logs are given them.
pub struct Slots {
    /// More values than a log can have, all of one slot: alternately values that agree in their high
    /// bits and values that agree in their low bits.
    pub values: Vec<u32>,
    /// All clients, those of a slot one after the other: about 128 each.
    pub clients: Vec<u16>,
}

impl Default for Slots {
    /// The clients share slots of the map that values share slots of.
    fn default() -> Slots {
        let is_of_slot_0 = |value: &u32| slot_of(*value) == 0;
        let high_alike = (0..).filter(is_of_slot_0);
        let low_alike = (1..).map(|n: u32| n.rotate_left(16)).filter(is_of_slot_0);
        let in_turn = high_alike
            .zip(low_alike)
            .flat_map(|(one, other)| [one, other]);
        let mut clients: Vec<u16> = (0..=u16::MAX).collect();
        clients.sort_by_key(|&client| slot_of(client.into()));
        Slots {
            values: in_turn.take(MAX_RECORDS + 1).collect(),
            clients,
        }
    }
}

impl Slots {
    /// The same, but the clients share slots of the reader's map: 64 each.
    pub fn of_the_reader() -> Slots {
        let mut slots = Slots::default();
        slots
            .clients
            .sort_by_key(|&client| (narrow_slot_of(client), client));
        slots
    }

    /// The records with other values and clients, which are equal exactly where they were equal. The
    /// values all share one slot, in the order in which they appear, and so do those for clients 0 to
    /// 125.
    pub fn shared(&self, records: &[Record]) -> Vec<Record> {
        let mut unused = self.values.iter();
        let mut renamed: HashMap<u32, u32> = HashMap::new();
        let mut other = |value| {
            let next = || *unused.next().expect("values enough");
            *renamed.entry(value).or_insert_with(next)
        };
        let with_others = |record: &Record| Record {
            client: self.clients[usize::from(record.client)],
            event: record.event.with_value(&mut other),
            ..*record
        };
        records.iter().map(with_others).collect()
    }
}

#[cfg(test)]
mod tests {
    use std::collections::HashSet;

    use super::{narrow_slot_of, slot_of, Slots};
    use crate::logs::notation::run;
    use crate::model::record::{call_add, call_remove, return_value};

    #[test]
    fn values_and_clients_share_slots() {
        let slots = Slots::default();
        assert!(slots.values.iter().all(|&value| slot_of(value) == 0));
        assert_eq!(slots.values[..4], [0, 0x011C_0000, 233, 0x0391_0000]);
        let distinct: HashSet<&u32> = slots.values.iter().collect();
        assert_eq!(distinct.len(), 1025);
        let of_client = |client: &u16| slot_of((*client).into());
        assert!(slots.clients[..=125].iter().all(|c| of_client(c) == 0));
        assert!(slots.clients.is_sorted_by_key(of_client));
        assert_eq!(slots.clients.len(), 65_536);
    }

    #[test]
    fn clients_share_slots_of_the_reader() {
        let clients = Slots::of_the_reader().clients;
        assert_eq!(clients.len(), 65_536);
        let slots: Vec<&[u16]> = clients
            .chunk_by(|&one, &next| narrow_slot_of(one) == narrow_slot_of(next))
            .collect();
        assert_eq!(slots.len(), 1024);
        assert!(slots.iter().all(|slot| slot.len() == 64));
        assert_eq!(slots[0][..3], [0, 2047, 3070]);
    }

    #[test]
    fn what_was_alike_stays_alike() {
        let shared = Slots::default().shared(&run("A7( Ra( Ra7) A0( Rb( Rb9)"));
        let expected = [
            call_add(233, 1, 0),
            call_remove(610, 2),
            return_value(610, 3, 0),
            call_add(1220, 4, 0x011C_0000),
            call_remove(1597, 5),
            return_value(1597, 6, 233),
        ];
        assert_eq!(shared, expected);
    }
}
