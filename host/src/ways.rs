//! Which way a call goes, for the comparison with the Rust: no program that runs a processor needs it.

use crate::mirror::{LentCore, RawCall};
use crate::{Call, Core};

unsafe extern "C" {
    // The one export of the crate `ways`.
    fn m68k_way(
        core: LentCore,
        call: RawCall,
        store: *mut u8,
        store_len: usize,
        log: *mut u32,
        log_len: usize,
    ) -> u32;
}

impl Core {
    /// Whether the fast way does a call. Store and log are written then as by the call; where it does not, they stay. The
    /// core stays in any case.
    pub fn is_fast(&self, call: Call, store: &mut [u8], log: &mut [u32]) -> bool {
        let (raw, _) = call.to_raw();
        let (store_len, log_len) = (store.len(), log.len());
        // Sound as in `call`; the core is given by value.
        let way = unsafe {
            let (store, log) = (store.as_mut_ptr(), log.as_mut_ptr());
            m68k_way(*self.lent(), raw, store, store_len, log, log_len)
        };
        way != 0
    }
}
