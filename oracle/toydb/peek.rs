//! A child of toydb's bitcask module, where its tests would stand: it shows where the key directory has each entry, and alters nothing.

use super::BitCask;

/// The place of an entry: its offset, the key, the value's length.
pub struct Place {
    pub offset: u64,
    pub key: Vec<u8>,
    pub value: usize,
}

/// The live entries in key order.
pub fn places(engine: &BitCask) -> Vec<Place> {
    engine
        .keydir
        .iter()
        .map(|(key, at)| Place { offset: at.offset - 8 - key.len() as u64, key: key.clone(), value: at.length })
        .collect()
}
