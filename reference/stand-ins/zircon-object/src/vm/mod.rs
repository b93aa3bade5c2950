//! Stand-in for address regions: a process has one and nothing is done with it.

use alloc::sync::Arc;

pub struct VmAddressRegion;

impl VmAddressRegion {
    pub fn new_root() -> Arc<Self> {
        Arc::new(VmAddressRegion)
    }

    pub fn table_phys(&self) -> usize {
        0
    }
}
