//! An engine over toydb's BitCask that holds the writes of one call back until the call has ended. Limits are then judged on them: all are
//! laid into the BitCask, or none. It can also hide records outside a window, so that toydb is lent only what a scan step reads.

use std::collections::BTreeMap;
use std::ops::{Bound, RangeBounds};
use std::panic::{AssertUnwindSafe, catch_unwind};
use std::path::{Path, PathBuf};

use toydb::error::Result;
use toydb::storage::bitcask::BitCask;
use toydb::storage::{Engine, Status};

pub struct Held {
    pub file: BitCask,
    path: PathBuf,
    /// The writes of the call under way, in turn; None deletes.
    pub writes: Vec<(Vec<u8>, Option<Vec<u8>>)>,
    /// Records above this engine key are not shown.
    pub ceiling: Option<Vec<u8>>,
    /// Records up to this engine key are not shown.
    pub floor: Option<Vec<u8>>,
    /// The bounds of the last scan, and whether they were crossed, where the BitCask's map panics.
    pub bounds: (Bound<Vec<u8>>, Bound<Vec<u8>>),
    pub crossed: bool,
}

impl Held {
    pub fn open(path: &Path) -> Held {
        let file = BitCask::new(path.to_path_buf()).expect("a log file opens");
        let bounds = (Bound::Unbounded, Bound::Unbounded);
        Held { file, path: path.to_path_buf(), writes: Vec::new(), ceiling: None, floor: None, bounds, crossed: false }
    }

    /// The log's bytes as the BitCask wrote them.
    pub fn bytes(&self) -> Vec<u8> {
        std::fs::read(&self.path).expect("the log can be read")
    }

    pub fn used(&mut self) -> u64 {
        self.file.status().expect("a status").disk_size
    }

    /// The bytes that the held writes would append.
    pub fn size_of_writes(&self) -> u64 {
        self.writes.iter().map(|(k, v)| 8 + k.len() as u64 + v.as_ref().map_or(0, |v| v.len() as u64)).sum()
    }

    /// The keys among the held writes that are not live, each once.
    pub fn new_keys(&mut self) -> u64 {
        let mut keys: Vec<_> = self.writes.iter().filter(|(_, v)| v.is_some()).map(|(k, _)| k.clone()).collect();
        keys.sort();
        keys.dedup();
        keys.iter().filter(|k| self.file.get(k).expect("a get").is_none()).count() as u64
    }

    /// Lays the held writes into the BitCask.
    pub fn lay(&mut self) {
        for (key, value) in std::mem::take(&mut self.writes) {
            match value {
                Some(value) => self.file.set(&key, value).expect("a set"),
                None => self.file.delete(&key).expect("a delete"),
            }
        }
    }

    /// Whether the last scan could come to a key.
    pub fn read(&self, key: &Vec<u8>) -> bool {
        self.bounds.contains(key) && self.shown(key)
    }

    fn shown(&self, key: &[u8]) -> bool {
        self.ceiling.as_ref().is_none_or(|top| key <= top.as_slice())
            && self.floor.as_ref().is_none_or(|low| key > low.as_slice())
    }
}

impl Engine for Held {
    type ScanIterator<'a> = std::vec::IntoIter<Result<(Vec<u8>, Vec<u8>)>>;

    fn delete(&mut self, key: &[u8]) -> Result<()> {
        self.writes.push((key.to_vec(), None));
        Ok(())
    }

    fn flush(&mut self) -> Result<()> {
        self.file.flush()
    }

    fn get(&mut self, key: &[u8]) -> Result<Option<Vec<u8>>> {
        match self.writes.iter().rev().find(|(k, _)| k == key) {
            Some((_, value)) => Ok(value.clone()),
            None => self.file.get(key),
        }
    }

    fn scan(&mut self, range: impl RangeBounds<Vec<u8>>) -> Self::ScanIterator<'_> {
        let range = (range.start_bound().cloned(), range.end_bound().cloned());
        self.bounds = range.clone();
        let file = &mut self.file;
        let found = catch_unwind(AssertUnwindSafe(|| file.scan(range.clone()).collect::<Result<BTreeMap<_, _>>>()));
        let Ok(pairs) = found else {
            self.crossed = true;
            return Vec::new().into_iter();
        };
        let mut pairs = pairs.expect("a scan of the file");
        for (key, value) in self.writes.iter().filter(|(k, _)| range.contains(k)) {
            match value {
                Some(value) => pairs.insert(key.clone(), value.clone()),
                None => pairs.remove(key),
            };
        }
        pairs.into_iter().filter(|(k, _)| self.shown(k)).map(Ok).collect::<Vec<_>>().into_iter()
    }

    fn scan_dyn(&mut self, range: (Bound<Vec<u8>>, Bound<Vec<u8>>)) -> Box<dyn toydb::storage::ScanIterator + '_> {
        Box::new(self.scan(range))
    }

    fn set(&mut self, key: &[u8], value: Vec<u8>) -> Result<()> {
        self.writes.push((key.to_vec(), Some(value)));
        Ok(())
    }

    fn status(&mut self) -> Result<Status> {
        self.file.status()
    }
}
