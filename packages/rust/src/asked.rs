//! Lists that C is asked for, one after the other.
use crate::answers::done;
use crate::Fault;
use alloc::vec::Vec;

/// What `read` puts into `empty` for each number, as `made` makes it.
pub(crate) fn all<R: Clone, T>(
    count: usize,
    empty: R,
    mut read: impl FnMut(usize, &mut R) -> i32,
    made: impl Fn(R) -> T,
) -> Result<Vec<T>, Fault> {
    let mut found = Vec::with_capacity(count);
    for index in 0..count {
        let mut it = empty.clone();
        done(read(index, &mut it))?;
        found.push(made(it));
    }
    Ok(found)
}
