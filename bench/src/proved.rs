// The proved code, as the static library of crate `workloads` exports it.
use crate::measure::shelves::Make;

// How large a shelf is made, and what is done with it: laid out as in crate `workloads`.
#[repr(C)]
#[derive(Clone, Copy)]
pub struct ShelfWork {
    pub cards: u32,
    pub width: u32,
    pub places: u32,
    // How many versions are put.
    pub puts: u32,
    // How many rounds of questions are asked then.
    pub asks: u32,
}

// How large a catalogue's shelf is, and which of the four kinds of work is done on it, how often: laid out as in crate `workloads`.
#[repr(C)]
#[derive(Clone, Copy)]
pub struct EditingWork {
    pub cards: u32,
    pub places: u32,
    pub depth: u32,
    pub transactions: u32,
    pub open: u32,
    pub kind: u32,
}

unsafe extern "C" {
    fn workload_judge(bytes: *const u8, length: usize) -> u32;
    fn workload_row(work: *const ShelfWork) -> u64;
    fn workload_pool(work: *const ShelfWork) -> u64;
    fn workload_split(work: *const ShelfWork) -> u64;
    fn workload_pile(work: *const ShelfWork) -> u64;
    fn workload_editing_row(work: *const EditingWork) -> u64;
    fn workload_editing_pool(work: *const EditingWork) -> u64;
    fn workload_editing_split(work: *const EditingWork) -> u64;
    fn workload_editing_pile(work: *const EditingWork) -> u64;
}

// What the judge says: a refusal's number, or 100 and then 1 for WCF, 2 for CONS and 4 for ACA, where they hold.
pub fn judge(file: &[u8]) -> u32 {
    unsafe { workload_judge(file.as_ptr(), file.len()) }
}

// The checksum of the work on one make of shelf.
pub fn shelf(make: Make, work: &ShelfWork) -> u64 {
    unsafe {
        match make {
            Make::Row => workload_row(work),
            Make::Pool => workload_pool(work),
            Make::Split => workload_split(work),
            Make::Pile => workload_pile(work),
        }
    }
}

// The checksum of editors' work on one make of shelf.
pub fn editing(make: Make, work: &EditingWork) -> u64 {
    unsafe {
        match make {
            Make::Row => workload_editing_row(work),
            Make::Pool => workload_editing_pool(work),
            Make::Split => workload_editing_split(work),
            Make::Pile => workload_editing_pile(work),
        }
    }
}
