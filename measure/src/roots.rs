//! Roots rounded up: the proved one, plain Rust's and that of doubles.

extern "C" {
    fn timing_roots(numbers: *const u64, number_count: usize, roots: *mut u64, root_count: usize);
}

/// The root of each number, by the proved library; nothing where there are fewer places.
pub fn proved(numbers: &[u64], roots: &mut [u64]) {
    // The pointers are those of slices, valid for their lengths and apart from each other.
    unsafe {
        timing_roots(
            numbers.as_ptr(),
            numbers.len(),
            roots.as_mut_ptr(),
            roots.len(),
        );
    }
}

/// The machine's root of n, rounded down, where n is below 2^63; else that of n less 2^63.
#[inline(always)]
fn near_root(n: u64) -> u64 {
    let root = ((n & (u64::MAX >> 1)) as i64 as f64).sqrt();
    // SAFETY: it is a number from 0 to 2^32, as that of which it is the root is from 0 to 2^63.
    unsafe { root.to_int_unchecked::<i64>() as u64 }
}

/// The root of n, rounded up: the machine's, or one above it.
#[inline(always)]
pub fn root_up(n: u64) -> u64 {
    let near = near_root(n);
    let root = near + u64::from(near * near < n);
    // It is 0 of 0 alone.
    if root == 0 || ((root - 1) * (root - 1) < n && n <= root * root) {
        root
    } else {
        root_up_by_isqrt(n)
    }
}

#[cold]
#[inline(never)]
fn root_up_by_isqrt(n: u64) -> u64 {
    let root = n.isqrt();
    root + u64::from(root * root < n)
}

#[inline(never)]
pub fn plain(numbers: &[u64], roots: &mut [u64]) {
    for (root, number) in roots.iter_mut().zip(numbers) {
        *root = root_up(*number);
    }
}

#[inline(never)]
pub fn doubles(numbers: &[u64], roots: &mut [u64]) {
    for (root, number) in roots.iter_mut().zip(numbers) {
        *root = (*number as f64).sqrt().ceil() as u64;
    }
}
