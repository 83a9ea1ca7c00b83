// SPDX-License-Identifier: Apache-2.0
//! Document 01's key, with the bucket rule as request 3 of document 02 amends it, in place of the original key.rs.

/// The only type here that the original files read. The others are named by the original mod.rs and not used.
#[derive(Clone, Copy, Debug, Default, Eq, Hash, PartialEq)]
pub struct CacheKey {
    pub file: u64,
    pub kind: u8,
    pub index: u64,
}

impl CacheKey {
    /// "file + kind + index, the sum wrapping at 2^64", as request 3 of document 02 amends it: "file is turned left by 5 bits before it joins the sum". The
    /// generators and the checks ask here too, so that the rule stands once.
    pub fn sum(self) -> u64 {
        self.file.rotate_left(5).wrapping_add(u64::from(self.kind)).wrapping_add(self.index)
    }

    /// "modulo the bucket count".
    pub fn bucket_of(self, buckets: u64) -> u64 {
        self.sum() % buckets
    }

    /// What the original calls: it passes the bucket count less 1.
    pub(super) fn bucket(self, mask: usize) -> usize {
        self.bucket_of(mask as u64 + 1) as usize
    }
}

pub(crate) struct ContentRevision;
pub(crate) struct FileIdentity;
pub(crate) struct FilePageIndex;
pub(crate) struct FilesystemGeneration;
pub(crate) struct NodeIdentity;
