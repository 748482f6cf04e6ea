//! The functions of `include/basilvault.h`, and the values that their answers are made of. Use the safe functions of the crate instead.

unsafe extern "C" {
    pub fn basilvault_read(table: *const u8, table_len: usize, values: *mut u64, values_len: usize) -> u32;
    pub fn basilvault_tops(table: *const u8, table_len: usize, values: *mut u64, values_len: usize) -> u32;
    pub fn basilvault_clauses(table: *const u8, table_len: usize, list: *mut u16, list_len: usize, values: *mut u64, values_len: usize) -> u32;
    pub fn basilvault_search(
        list: *const u16, list_len: usize, variables: usize, budget: u64, answer: *mut u8, answer_len: usize, values: *mut u64, values_len: usize,
    ) -> u32;
    pub fn basilvault_check(table: *const u8, table_len: usize, map: *const u8, map_len: usize, values: *mut u64, values_len: usize) -> u32;
    pub fn basilvault_quotient(
        table: *const u8, table_len: usize, map: *const u8, map_len: usize, out: *mut u8, out_len: usize, values: *mut u64, values_len: usize,
    ) -> u32;
    pub fn basilvault_reduce(
        table: *const u8, table_len: usize, budget: u64, list: *mut u16, list_len: usize, map: *mut u8, map_len: usize, out: *mut u8, out_len: usize,
        values: *mut u64, values_len: usize,
    ) -> u32;
    pub fn basilvault_uses(
        table: *const u8, table_len: usize, map: *const u8, map_len: usize, lines: *const u8, lines_len: usize, values: *mut u64, values_len: usize,
    ) -> u32;
    pub fn basilvault_choose(
        table: *const u8, table_len: usize, first: *const u8, first_len: usize, second: *const u8, second_len: usize, values: *mut u64,
        values_len: usize,
    ) -> u32;
    pub fn basilvault_generate(
        seed: u32, states: usize, internals: usize, calls: usize, returns: usize, density: u32, out: *mut u8, out_len: usize, values: *mut u64,
        values_len: usize,
    ) -> u32;
    pub fn basilvault_script(table: *const u8, table_len: usize, script: *const u8, script_len: usize, values: *mut u64, values_len: usize) -> u32;
    pub fn basilvault_records(
        table: *const u8, table_len: usize, map: *const u8, map_len: usize, out: *mut u8, out_len: usize, values: *mut u64, values_len: usize,
    ) -> u32;
    pub fn basilvault_fit(first: *const u8, first_len: usize, second: *const u8, second_len: usize, values: *mut u64, values_len: usize) -> u32;
    pub fn basilvault_intersection(
        first: *const u8, first_len: usize, second: *const u8, second_len: usize, out: *mut u8, out_len: usize, values: *mut u64, values_len: usize,
    ) -> u32;
    pub fn basilvault_union(
        first: *const u8, first_len: usize, second: *const u8, second_len: usize, out: *mut u8, out_len: usize, values: *mut u64, values_len: usize,
    ) -> u32;
    pub fn basilvault_season(
        tables: *const u8, tables_len: usize, lengths: *const u64, count: usize, guesses: u64, list: *mut u16, list_len: usize, maps: *mut u8,
        maps_len: usize, out: *mut u8, out_len: usize, values: *mut u64, values_len: usize,
    ) -> u32;
    pub fn basilvault_read_within(states: usize, symbols: usize, table: *const u8, table_len: usize, values: *mut u64, values_len: usize) -> u32;
    pub fn basilvault_tops_within(states: usize, symbols: usize, table: *const u8, table_len: usize, values: *mut u64, values_len: usize) -> u32;
    pub fn basilvault_clauses_within(
        states: usize, symbols: usize, table: *const u8, table_len: usize, list: *mut u16, list_len: usize, values: *mut u64, values_len: usize,
    ) -> u32;
    pub fn basilvault_search_within(
        states: usize, symbols: usize, list: *const u16, list_len: usize, variables: usize, budget: u64, answer: *mut u8, answer_len: usize,
        values: *mut u64, values_len: usize,
    ) -> u32;
    pub fn basilvault_check_within(
        states: usize, symbols: usize, table: *const u8, table_len: usize, map: *const u8, map_len: usize, values: *mut u64, values_len: usize,
    ) -> u32;
    pub fn basilvault_quotient_within(
        states: usize, symbols: usize, table: *const u8, table_len: usize, map: *const u8, map_len: usize, out: *mut u8, out_len: usize,
        values: *mut u64, values_len: usize,
    ) -> u32;
    pub fn basilvault_reduce_within(
        states: usize, symbols: usize, table: *const u8, table_len: usize, budget: u64, list: *mut u16, list_len: usize, map: *mut u8, map_len: usize,
        out: *mut u8, out_len: usize, values: *mut u64, values_len: usize,
    ) -> u32;
    pub fn basilvault_uses_within(
        states: usize, symbols: usize, table: *const u8, table_len: usize, map: *const u8, map_len: usize, lines: *const u8, lines_len: usize,
        values: *mut u64, values_len: usize,
    ) -> u32;
    pub fn basilvault_choose_within(
        states: usize, symbols: usize, table: *const u8, table_len: usize, first: *const u8, first_len: usize, second: *const u8, second_len: usize,
        values: *mut u64, values_len: usize,
    ) -> u32;
    pub fn basilvault_records_within(
        states: usize, symbols: usize, table: *const u8, table_len: usize, map: *const u8, map_len: usize, out: *mut u8, out_len: usize,
        values: *mut u64, values_len: usize,
    ) -> u32;
    pub fn basilvault_script_within(
        states: usize, symbols: usize, table: *const u8, table_len: usize, script: *const u8, script_len: usize, values: *mut u64, values_len: usize,
    ) -> u32;
    pub fn basilvault_generate_within(
        state_limit: usize, symbol_limit: usize, seed: u32, states: usize, internals: usize, calls: usize, returns: usize, density: u32, out: *mut u8,
        out_len: usize, values: *mut u64, values_len: usize,
    ) -> u32;
    pub fn basilvault_intersection_within(
        states: usize, symbols: usize, first: *const u8, first_len: usize, second: *const u8, second_len: usize, out: *mut u8, out_len: usize,
        values: *mut u64, values_len: usize,
    ) -> u32;
    pub fn basilvault_union_within(
        states: usize, symbols: usize, first: *const u8, first_len: usize, second: *const u8, second_len: usize, out: *mut u8, out_len: usize,
        values: *mut u64, values_len: usize,
    ) -> u32;
    pub fn basilvault_season_within(
        states: usize, symbols: usize, tables: *const u8, tables_len: usize, lengths: *const u64, count: usize, guesses: u64, list: *mut u16,
        list_len: usize, maps: *mut u8, maps_len: usize, out: *mut u8, out_len: usize, values: *mut u64, values_len: usize,
    ) -> u32;
}

/// An answer and the values that C has for it, in their order.
pub trait Values<const K: usize>: Sized {
    /// The answer of these values.
    fn from_values(values: [u64; K]) -> Self;

    /// The values of this answer.
    fn values(&self) -> [u64; K];
}

impl<const K: usize> Values<K> for [u64; K] {
    fn from_values(values: [u64; K]) -> [u64; K] {
        values
    }

    fn values(&self) -> [u64; K] {
        *self
    }
}

impl Values<1> for u64 {
    fn from_values([value]: [u64; 1]) -> u64 {
        value
    }

    fn values(&self) -> [u64; 1] {
        [*self]
    }
}

impl Values<1> for usize {
    fn from_values([value]: [u64; 1]) -> usize {
        value as usize
    }

    fn values(&self) -> [u64; 1] {
        [*self as u64]
    }
}

impl Values<1> for bool {
    fn from_values([value]: [u64; 1]) -> bool {
        match value {
            0 => false,
            1 => true,
            _ => panic!("the library answers 0 or 1, not {value}"),
        }
    }

    fn values(&self) -> [u64; 1] {
        [u64::from(*self)]
    }
}
