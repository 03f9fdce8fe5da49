//! Where things stand: leaves, buckets, paths, siblings, the bucket lists and the tree's words.
//! Every function here is called with a height from 1 to 16 and Z from 1 to 5.

/// "N = 2^h leaves".
pub fn leaves(h: u64) -> u64 {
    2u64.pow(h as u32)
}

/// "The path of leaf q at level d holds bucket floor((N+q) / 2^(h-d))."
pub fn path_bucket(h: u64, leaf: u64, level: u64) -> u64 {
    (leaves(h) + leaf) / 2u64.pow((h - level) as u32)
}

/// The path's buckets at levels 1 to h, in that order.
pub fn path_below_root(h: u64, leaf: u64) -> Vec<u64> {
    let mut path = Vec::new();
    for level in 1..=h {
        path.push(path_bucket(h, leaf, level));
    }
    path
}

/// Whether the path of this leaf holds this bucket, at whatever level. The leaf is below N.
pub fn path_holds(h: u64, leaf: u64, bucket: u64) -> bool {
    for level in 0..=h {
        if path_bucket(h, leaf, level) == bucket {
            return true;
        }
    }
    false
}

/// "The sibling of an even bucket is the next number, of an odd one the number before."
pub fn sibling(bucket: u64) -> u64 {
    if bucket % 2 == 0 {
        bucket + 1
    } else {
        bucket - 1
    }
}

/// "bucket n (2 to 2N-1) has 4(Z+1) words".
pub fn bucket_words(z: u64) -> u64 {
    4 * (z + 1)
}

/// "from word 4(Z+1)(n-2)". The bucket is from 2 to 2N-1.
pub fn bucket_start(z: u64, bucket: u64) -> usize {
    (bucket_words(z) * (bucket - 2)) as usize
}

/// "The tree has exactly 4(Z+1)(2N-2) words."
pub fn tree_words(h: u64, z: u64) -> u64 {
    bucket_words(z) * (2 * leaves(h) - 2)
}

/// The buckets that a request names: first the whole ones, then those of which only the least
/// record is fetched.
#[derive(Clone, PartialEq, Eq, Debug)]
pub struct BucketList {
    pub whole: Vec<u64>,
    pub least: Vec<u64>,
}

impl BucketList {
    pub fn numbers(&self) -> Vec<u64> {
        let mut numbers = self.whole.clone();
        numbers.extend(&self.least);
        numbers
    }

    /// The fetched words: 4(Z+1) for each whole bucket, then 4 for each sibling.
    pub fn words_needed(&self, z: u64) -> u64 {
        bucket_words(z) * self.whole.len() as u64 + 4 * self.least.len() as u64
    }

    /// "the sum over the list, 4(Z+1) for each whole bucket twice and 4 for each sibling once".
    pub fn words_moved(&self, z: u64) -> u64 {
        let mut sum = 0;
        for _ in &self.whole {
            sum += 2 * bucket_words(z);
        }
        for _ in &self.least {
            sum += 4;
        }
        sum
    }
}

/// "Its list: the first leaf's path at levels 1 to h, then the second's, all whole; then at levels
/// 2 to h the siblings of the first and of the second path, least record only." All siblings of the
/// first path come before those of the second.
pub fn insert_list(h: u64, first: u64, second: u64) -> BucketList {
    let mut whole = path_below_root(h, first);
    whole.extend(path_below_root(h, second));
    let mut least = Vec::new();
    for leaf in [first, second] {
        for level in 2..=h {
            least.push(sibling(path_bucket(h, leaf, level)));
        }
    }
    BucketList { whole, least }
}

/// "Their list: the path at levels 1 to h whole, then its siblings at levels 1 to h, least record
/// only."
pub fn removal_list(h: u64, leaf: u64) -> BucketList {
    let whole = path_below_root(h, leaf);
    let mut least = Vec::new();
    for bucket in &whole {
        least.push(sibling(*bucket));
    }
    BucketList { whole, least }
}
