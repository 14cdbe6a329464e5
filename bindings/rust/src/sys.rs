//! As `include/witc.h` declares it. A slice crosses as its pointer, which is never null, and its length.

#[repr(C)]
pub struct Answer {
    pub at: *const u8,
    pub length: usize,
    pub owner: *mut u8,
}

#[repr(C)]
pub struct Text {
    pub at: *const u8,
    pub length: usize,
    pub name: *const u8,
    pub name_length: usize,
}

#[repr(C)]
pub struct Why {
    pub offset: usize,
    pub subject: usize,
    pub code: u32,
    pub detail: u32,
}

pub const ABI: u32 = 2;
pub const DONE: u8 = 0;
pub const REFUSED: u8 = 1;
pub const BAD_ARGUMENT: u8 = 2;
pub const NO_MEMORY: u8 = 3;
pub type Within = unsafe extern "C" fn(*const u8, usize, usize, *mut Answer, *mut Why) -> u8;
pub type Plain = unsafe extern "C" fn(*const u8, usize, *mut Answer, *mut Why) -> u8;

unsafe extern "C" {
    pub fn witc_abi() -> u32;
    pub fn witc_free(answer: *mut Answer);
    pub fn witc_package_text_slice(
        bytes: *const u8,
        length: usize,
        answer: *mut Answer,
        why: *mut Why,
    ) -> u8;
    pub fn witc_package_text_within_slice(
        bytes: *const u8,
        length: usize,
        most: usize,
        answer: *mut Answer,
        why: *mut Why,
    ) -> u8;
    pub fn witc_package_bytes_slice(
        bytes: *const u8,
        length: usize,
        canonical: u32,
        answer: *mut Answer,
        why: *mut Why,
    ) -> u8;
    pub fn witc_package_json_slice(
        bytes: *const u8,
        length: usize,
        answer: *mut Answer,
        why: *mut Why,
    ) -> u8;
    pub fn witc_world_text_slice(
        bytes: *const u8,
        length: usize,
        answer: *mut Answer,
        why: *mut Why,
    ) -> u8;
    pub fn witc_world_text_within_slice(
        bytes: *const u8,
        length: usize,
        most: usize,
        answer: *mut Answer,
        why: *mut Why,
    ) -> u8;
    pub fn witc_world_json_slice(
        bytes: *const u8,
        length: usize,
        answer: *mut Answer,
        why: *mut Why,
    ) -> u8;
    pub fn witc_world_package_slice(
        bytes: *const u8,
        length: usize,
        answer: *mut Answer,
        why: *mut Why,
    ) -> u8;
    pub fn witc_module_text_slice(
        bytes: *const u8,
        length: usize,
        answer: *mut Answer,
        why: *mut Why,
    ) -> u8;
    pub fn witc_module_text_within_slice(
        bytes: *const u8,
        length: usize,
        most: usize,
        answer: *mut Answer,
        why: *mut Why,
    ) -> u8;
    pub fn witc_module_json_slice(
        bytes: *const u8,
        length: usize,
        answer: *mut Answer,
        why: *mut Why,
    ) -> u8;
    pub fn witc_module_package_slice(
        bytes: *const u8,
        length: usize,
        answer: *mut Answer,
        why: *mut Why,
    ) -> u8;
    pub fn witc_module_strip_slice(
        bytes: *const u8,
        length: usize,
        answer: *mut Answer,
        why: *mut Why,
    ) -> u8;
    pub fn witc_module_section_slice(
        bytes: *const u8,
        length: usize,
        number: usize,
        answer: *mut Answer,
        why: *mut Why,
    ) -> u8;
    pub fn witc_module_sections_slice(
        bytes: *const u8,
        length: usize,
        answer: *mut Answer,
        why: *mut Why,
    ) -> u8;
    pub fn witc_embed_slices(
        bytes: *const u8,
        length: usize,
        name: *const u8,
        name_length: usize,
        encoding: u32,
        canonical: u32,
        answer: *mut Answer,
        why: *mut Why,
    ) -> u8;
    pub fn witc_attach_slices(
        module: *const u8,
        module_length: usize,
        bytes: *const u8,
        length: usize,
        name: *const u8,
        name_length: usize,
        encoding: u32,
        canonical: u32,
        answer: *mut Answer,
        why: *mut Why,
    ) -> u8;
    pub fn witc_compat_slices(
        bytes: *const u8,
        length: usize,
        prev: *const u8,
        prev_length: usize,
        next: *const u8,
        next_length: usize,
        answer: *mut Answer,
        why: *mut Why,
    ) -> u8;
    pub fn witc_same_world_slices(
        bytes: *const u8,
        length: usize,
        name: *const u8,
        name_length: usize,
        other: *const u8,
        other_length: usize,
        other_name: *const u8,
        other_name_length: usize,
        answer: *mut Answer,
        why: *mut Why,
    ) -> u8;
    pub fn witc_texts_package_slice(
        texts: *const Text,
        count: usize,
        own: usize,
        answer: *mut Answer,
        why: *mut Why,
    ) -> u8;
    pub fn witc_kinds_slice(bytes: *const u8, length: usize) -> u8;
}
