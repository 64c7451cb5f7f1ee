//! ahash: the map, with std's hasher.

pub type AHashMap<K, V> = std::collections::HashMap<K, V>;
