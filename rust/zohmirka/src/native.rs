//! The functions of c/zohmirka.h, on slices of any length. The library takes any bytes, words and lengths.

#[repr(C)]
#[derive(Clone, Copy, Debug, PartialEq, Eq)]
pub struct Sheet {
    pub refusal: u32,
    pub bytes: usize,
}

#[repr(C)]
#[derive(Clone, Copy, Debug, PartialEq, Eq)]
pub struct Report {
    pub refusal: u32,
    pub outcome: u32,
    pub cells: u32,
    pub firings: u32,
    pub clocks: u32,
}

extern "C" {
    fn zohmirka_version() -> u32;
    fn zohmirka_plan(
        request: *const u8,
        request_len: usize,
        sheet: *mut u8,
        sheet_len: usize,
    ) -> Sheet;
    fn zohmirka_judge(sheet: *const u8, sheet_len: usize) -> u32;
    fn zohmirka_read_chain(
        sheet: *const u8,
        sheet_len: usize,
        chain: *mut u32,
        chain_len: usize,
        rows: *mut u32,
        rows_len: usize,
    ) -> u32;
    fn zohmirka_run(
        sheet: *const u8,
        sheet_len: usize,
        state: *mut u32,
        state_len: usize,
        store: *mut u32,
        store_len: usize,
        cells: *const u32,
        cells_len: usize,
        out: *mut u32,
        out_len: usize,
        allowance: u32,
    ) -> Report;
    fn zohmirka_run_chain(
        chain: *const u32,
        chain_len: usize,
        rows: *const u32,
        rows_len: usize,
        state: *mut u32,
        state_len: usize,
        store: *mut u32,
        store_len: usize,
        cells: *const u32,
        cells_len: usize,
        out: *mut u32,
        out_len: usize,
        allowance: u32,
    ) -> Report;
    fn zohmirka_judge_chain(
        chain: *const u32,
        chain_len: usize,
        rows: *const u32,
        rows_len: usize,
    ) -> u32;
    fn zohmirka_write_chain(
        chain: *const u32,
        chain_len: usize,
        rows: *const u32,
        rows_len: usize,
        sheet: *mut u8,
        sheet_len: usize,
    ) -> Sheet;
    fn zohmirka_plan_pair(
        grid: *const u32,
        grid_len: usize,
        rows: *const u32,
        rows_len: usize,
        first: *const u32,
        first_len: usize,
        second: *const u32,
        second_len: usize,
        chain: *mut u32,
        chain_len: usize,
    ) -> u32;
    fn zohmirka_run_pair(
        chain: *const u32,
        chain_len: usize,
        rows: *const u32,
        rows_len: usize,
        first: *const u32,
        first_len: usize,
        second: *const u32,
        second_len: usize,
        state: *mut u32,
        state_len: usize,
        store: *mut u32,
        store_len: usize,
        cells: *const u32,
        cells_len: usize,
        out_first: *mut u32,
        out_first_len: usize,
        out_second: *mut u32,
        out_second_len: usize,
        allowance: u32,
    ) -> Report;
}

pub fn version() -> u32 {
    // SAFETY: it takes nothing.
    unsafe { zohmirka_version() }
}

pub fn plan(request: &[u8], sheet: &mut [u8]) -> Sheet {
    // SAFETY: pointers and lengths are those of slices, and what is written is lent as `&mut`; so in every function below.
    unsafe {
        zohmirka_plan(
            request.as_ptr(),
            request.len(),
            sheet.as_mut_ptr(),
            sheet.len(),
        )
    }
}

pub fn judge(sheet: &[u8]) -> u32 {
    unsafe { zohmirka_judge(sheet.as_ptr(), sheet.len()) }
}

pub fn read_chain(sheet: &[u8], chain: &mut [u32], rows: &mut [u32]) -> u32 {
    unsafe {
        zohmirka_read_chain(
            sheet.as_ptr(),
            sheet.len(),
            chain.as_mut_ptr(),
            chain.len(),
            rows.as_mut_ptr(),
            rows.len(),
        )
    }
}

pub fn run(
    sheet: &[u8],
    state: &mut [u32],
    store: &mut [u32],
    cells: &[u32],
    out: &mut [u32],
    allowance: u32,
) -> Report {
    unsafe {
        zohmirka_run(
            sheet.as_ptr(),
            sheet.len(),
            state.as_mut_ptr(),
            state.len(),
            store.as_mut_ptr(),
            store.len(),
            cells.as_ptr(),
            cells.len(),
            out.as_mut_ptr(),
            out.len(),
            allowance,
        )
    }
}

pub fn run_chain(
    chain: &[u32],
    rows: &[u32],
    state: &mut [u32],
    store: &mut [u32],
    cells: &[u32],
    out: &mut [u32],
    allowance: u32,
) -> Report {
    unsafe {
        zohmirka_run_chain(
            chain.as_ptr(),
            chain.len(),
            rows.as_ptr(),
            rows.len(),
            state.as_mut_ptr(),
            state.len(),
            store.as_mut_ptr(),
            store.len(),
            cells.as_ptr(),
            cells.len(),
            out.as_mut_ptr(),
            out.len(),
            allowance,
        )
    }
}

pub fn judge_chain(chain: &[u32], rows: &[u32]) -> u32 {
    unsafe { zohmirka_judge_chain(chain.as_ptr(), chain.len(), rows.as_ptr(), rows.len()) }
}

pub fn write_chain(chain: &[u32], rows: &[u32], sheet: &mut [u8]) -> Sheet {
    unsafe {
        zohmirka_write_chain(
            chain.as_ptr(),
            chain.len(),
            rows.as_ptr(),
            rows.len(),
            sheet.as_mut_ptr(),
            sheet.len(),
        )
    }
}

pub fn plan_pair(
    grid: &[u32],
    rows: &[u32],
    first: &[u32],
    second: &[u32],
    chain: &mut [u32],
) -> u32 {
    unsafe {
        zohmirka_plan_pair(
            grid.as_ptr(),
            grid.len(),
            rows.as_ptr(),
            rows.len(),
            first.as_ptr(),
            first.len(),
            second.as_ptr(),
            second.len(),
            chain.as_mut_ptr(),
            chain.len(),
        )
    }
}

pub fn run_pair(
    chain: &[u32],
    rows: &[u32],
    first: &[u32],
    second: &[u32],
    state: &mut [u32],
    store: &mut [u32],
    cells: &[u32],
    out_first: &mut [u32],
    out_second: &mut [u32],
    allowance: u32,
) -> Report {
    unsafe {
        zohmirka_run_pair(
            chain.as_ptr(),
            chain.len(),
            rows.as_ptr(),
            rows.len(),
            first.as_ptr(),
            first.len(),
            second.as_ptr(),
            second.len(),
            state.as_mut_ptr(),
            state.len(),
            store.as_mut_ptr(),
            store.len(),
            cells.as_ptr(),
            cells.len(),
            out_first.as_mut_ptr(),
            out_first.len(),
            out_second.as_mut_ptr(),
            out_second.len(),
            allowance,
        )
    }
}

#[cfg(test)]
mod tests;
