//! Stand-in for the kernel's hash maps: the standard ones, with a hasher that is the same in each
//! run.

use std::collections::hash_map::DefaultHasher;
use std::hash::BuildHasherDefault;

pub type HashMap<K, V> = std::collections::HashMap<K, V, BuildHasherDefault<DefaultHasher>>;
