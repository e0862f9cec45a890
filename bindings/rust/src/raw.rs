//! The library's calls as they cross the border: a slice is where it begins and how long it is. See include/mipsuqal.h.
extern "C" {
    pub fn mipsuqal_fresh(new: *mut u8, new_length: usize) -> u32;
    pub fn mipsuqal_message(
        old: *const u8,
        old_length: usize,
        feed: *const u8,
        feed_length: usize,
        message: *const u8,
        message_length: usize,
        new: *mut u8,
        new_length: usize,
        keys: *mut u8,
        keys_length: usize,
        marks: *mut u32,
        marks_length: usize,
        order: *mut u32,
        order_length: usize,
    ) -> u32;
    pub fn mipsuqal_alert_sheet(
        old: *const u8,
        old_length: usize,
        feed: *const u8,
        feed_length: usize,
        sheet: *const u8,
        sheet_length: usize,
        new: *mut u8,
        new_length: usize,
    ) -> u32;
    pub fn mipsuqal_vehicle_sheet(
        old: *const u8,
        old_length: usize,
        feed: *const u8,
        feed_length: usize,
        sheet: *const u8,
        sheet_length: usize,
        clock: i64,
        new: *mut u8,
        new_length: usize,
    ) -> u32;
    pub fn mipsuqal_card(
        old: *const u8,
        old_length: usize,
        card: *const u8,
        card_length: usize,
        out: *mut u8,
        out_length: usize,
        candidates: *mut u16,
        candidates_length: usize,
        met: *mut u16,
        met_length: usize,
        noted: *mut u32,
        noted_length: usize,
        known: *mut u32,
        known_length: usize,
    ) -> u32;
    pub fn mipsuqal_report(
        old: *const u8,
        old_length: usize,
        feed: *const u8,
        feed_length: usize,
        out: *mut u8,
        out_length: usize,
    ) -> u32;
    pub fn mipsuqal_feed_alerts(
        feed: *const u8,
        feed_length: usize,
        message: *const u8,
        message_length: usize,
        out: *mut u8,
        out_length: usize,
    ) -> u32;
    pub fn mipsuqal_length(number: u32) -> usize;
    pub fn mipsuqal_end(kind: u32, bytes: *const u8, length: usize) -> usize;
}
