// The archive's functions, declared once: `ffi.rs` includes this for the safe forms, the differential test for its guarded ones.
//
// The number in a `link_name` rises with each change of a call's parameters, so that a declaration from before such a
// change does not link.
#[allow(dead_code)] // the test does not call all of them
#[rustfmt::skip]
extern "C" {
    fn welgadou_version() -> u32;
    fn welgadou_cells_ceiling() -> u32;
    fn welgadou_horizon_ceiling() -> u32;
    fn welgadou_divisor_ceiling() -> u32;
    fn welgadou_jam_ceiling() -> u32;
    fn welgadou_count_ceiling() -> u32;
    #[link_name = "welgadou_forecast_3"]
    fn welgadou_forecast(
        divisor: u32, free: u32, wave: u32, jam: u32, critical: u32, cells: *const u32, cells_len: usize,
        upstream: *const u32, upstream_len: usize, downstream: *const u32, downstream_len: usize, horizon: u32,
        caps: *const u32, caps_len: usize, out: *mut u32, out_len: usize, entered: *mut u64, left: *mut u64,
        total_entered: *mut u64, total_left: *mut u64, place: *mut u32,
    ) -> u32;
    #[link_name = "welgadou_settle_2"]
    fn welgadou_settle(
        divisor: u32, free: u32, wave: u32, jam: u32, critical: u32, cells: *const u32, cells_len: usize,
        upstream: u32, downstream: u32, horizon: u32, caps: *const u32, caps_len: usize, out: *mut u32,
        out_len: usize, settled: *mut u32, steps: *mut u32, place: *mut u32,
    ) -> u32;
    fn welgadou_read(
        divisor: u32, free: u32, wave: u32, jam: u32, critical: u32, cells: *const u32, cells_len: usize,
        upstream: u32, downstream: u32, letters: *mut u8, letters_len: usize, modes: *mut u8, modes_len: usize,
        counts: *mut u32, queued: *mut u32, place: *mut u32,
    ) -> u32;
    fn welgadou_fit(
        divisor: u32, free: u32, wave: u32, jam: u32, critical: u32, cells: *const u32, cells_len: usize,
        upstream: u32, downstream: u32, word: *const u8, word_len: usize, holds: *mut u32, face: *mut u32,
        place: *mut u32,
    ) -> u32;
    fn welgadou_rows(
        divisor: u32, free: u32, wave: u32, jam: u32, critical: u32, cells: *const u32, cells_len: usize,
        upstream: u32, downstream: u32, word: *const u8, word_len: usize, out: *mut i64, out_len: usize,
        place: *mut u32,
    ) -> u32;
    #[link_name = "welgadou_candidate_2"]
    fn welgadou_candidate(
        divisor: u32, free: u32, wave: u32, jam: u32, critical: u32, mode: u32, left: f64, own: f64, right: f64,
        numerator: *mut f64, place: *mut u32,
    ) -> u32;
    fn welgadou_count(cells: u32, words: *mut u64, place: *mut u32) -> u32;
    fn welgadou_station_density(
        divisor: u32, free: u32, wave: u32, jam: u32, critical: u32, density: f64, estimate: *mut f64,
        place: *mut u32,
    ) -> u32;
    fn welgadou_station_flow(
        divisor: u32, free: u32, wave: u32, jam: u32, critical: u32, flow: f64, speed: f64, estimate: *mut f64,
        place: *mut u32,
    ) -> u32;
    fn welgadou_station_speed(
        divisor: u32, free: u32, wave: u32, jam: u32, critical: u32, speed: f64, estimate: *mut f64,
        place: *mut u32,
    ) -> u32;
    fn welgadou_nearest(
        divisor: u32, free: u32, wave: u32, jam: u32, critical: u32, cells: *const u32, cells_len: usize,
        upstream: u32, downstream: u32, numbers: *mut u32, numbers_len: usize, changes: *mut i32, changes_len: usize,
        place: *mut u32,
    ) -> u32;
}
