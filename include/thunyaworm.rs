// The solver's calls for Rust, from 1.82 on and in any edition: `include!` this file, and link with `-L native=crates/interface/out
// -l static=interface`. What they do, and what a caller owes, stands in thunyaworm.h.

// A buffer for a sheet: with one byte more than a sheet may have, a longer one shows.
pub const THUNYAWORM_SHEET_BUFFER: usize = 16385;

// The bytes that a room must have, and the most values that the first call puts into the places.
pub const THUNYAWORM_ROOM: usize = 45056;
pub const THUNYAWORM_PLACES: usize = 5;

// The bytes that an export room must have; the starts, literals and places that the reader of DIMACS CNF must be lent.
pub const THUNYAWORM_EXPORT: usize = 16384;
pub const THUNYAWORM_CNF_STARTS: usize = 577;
pub const THUNYAWORM_CNF_LITERALS: usize = 4608;
pub const THUNYAWORM_CNF_PLACES: usize = 3;

unsafe extern "C" {
    pub fn thunyaworm_solve(
        sheet: *const u8,
        sheet_length: usize,
        budget: u32,
        room: *mut u8,
        room_length: usize,
        places: *mut u64,
        places_length: usize,
    ) -> usize;

    pub fn thunyaworm_listing(
        sheet: *const u8,
        sheet_length: usize,
        budget: u32,
        room: *mut u8,
        room_length: usize,
    ) -> usize;

    // What the program prints: hands back how many bytes it has at the front of the room. With a room of fewer than 45,056 bytes nothing
    // is done, and 0 is handed back.
    pub fn thunyaworm_print(
        sheet: *const u8,
        sheet_length: usize,
        budget: u32,
        room: *mut u8,
        room_length: usize,
    ) -> usize;

    // The export call: hands back how many bytes the text has at the front of the export room, 0 for a refusal. The places get what
    // the first call puts there; with fewer than five of them nothing is done, and 0 is handed back.
    pub fn thunyaworm_export(
        sheet: *const u8,
        sheet_length: usize,
        budget: u32,
        room: *mut u8,
        room_length: usize,
        export: *mut u8,
        export_length: usize,
        places: *mut u64,
        places_length: usize,
    ) -> usize;

    // The reader of DIMACS CNF: puts 21 or 22 into the places, changes nothing else and hands back 1; or puts 0, the atoms and the
    // clauses there and hands back 3. Then the first 577 starts hold where each clause starts among the literals and where the last
    // one ends, and the first 4,608 literals each twice its atom's number, and 1 more where it is negated; zeros stand behind both.
    // With fewer than 577 starts, 4,608 literals or 3 places nothing is done, and 0 is handed back.
    pub fn thunyaworm_read_cnf(
        text: *const u8,
        text_length: usize,
        starts: *mut u16,
        starts_length: usize,
        literals: *mut u16,
        literals_length: usize,
        places: *mut u64,
        places_length: usize,
    ) -> usize;
}
