//! A failing input is made as small as possible; the other tests rely on this
//! for what they print.

use crate::shrink::{fewer, zeroed, Budget};

pub fn only_the_guilty_is_left() -> Result<String, String> {
    let items = fewer(&Budget::new(), (0..1000).collect(), |items| {
        items.contains(&17) && items.contains(&900)
    });
    if items != [17, 900] {
        return Err(format!("items {items:?} are left"));
    }
    let bytes = zeroed(&Budget::new(), vec![0xFF; 9], |bytes| bytes[3] & 4 != 0);
    if bytes != [0, 0, 0, 4, 0, 0, 0, 0, 0] {
        return Err(format!("bytes {bytes:?} are left"));
    }
    Ok("items and bytes".to_string())
}
