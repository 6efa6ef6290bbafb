//! A check of this module against the archive.

use crate::exports as c;
use crate::{ClientHeader, KEY_MOST, ROWS, RowBytes, RowLengths, RowStamps, ServerHeader, VALUE_MOST, VERSION};

/// Whether this module fits the archive: the versions are the same, and the marks that the archive puts into each field
/// are where this module has it. An archive of another version may mark more than there is here, so it is not asked.
pub fn layout_agrees() -> bool {
    let mut row = RowBytes { key: [0; KEY_MOST], value: [0; VALUE_MOST] };
    let mut lengths = RowLengths { key: 0, value: 0 };
    let mut stamps = RowStamps { number: 0, expiry: 0 };
    let mut subtree = [0; KEY_MOST];
    let mut server = ServerHeader { number: 0, last_tick: 0, last_published: 0, count: 0 };
    let mut client = ClientHeader { phase: 0, number: 0, clock: 0, subtree_length: 0, count: 0 };
    let mut answer = [0; 4];
    // SAFETY: no pointers.
    if unsafe { c::chp_archive_version() } != VERSION {
        return false;
    }
    // SAFETY: an archive of this version writes so much, as the header says.
    let rows = unsafe {
        let subtree = subtree.as_mut_ptr();
        c::chp_layout_marks(&mut row, &mut lengths, &mut stamps, subtree, &mut server, &mut client, &mut answer)
    };
    rows == ROWS as u64
        && row == (RowBytes { key: [1; KEY_MOST], value: [2; VALUE_MOST] })
        && lengths == (RowLengths { key: 3, value: 4 })
        && stamps == (RowStamps { number: 5, expiry: 6 })
        && server == (ServerHeader { number: 7, last_tick: 8, last_published: 9, count: 10 })
        && subtree == [11; KEY_MOST]
        && client == (ClientHeader { phase: 12, number: 13, clock: 14, subtree_length: 15, count: 16 })
        && answer == [17, 18, 19, 20]
}
