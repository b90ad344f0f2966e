//! Stands for `bytemuck::bytes_of` on a row's word.

/// # Safety
/// Every bit pattern is a value, and there is no padding.
pub unsafe trait Pod: Copy + 'static {}
unsafe impl Pod for [u64; 1] {}

pub fn bytes_of<T: Pod>(t: &T) -> &[u8] {
    unsafe { std::slice::from_raw_parts(t as *const T as *const u8, size_of::<T>()) }
}
