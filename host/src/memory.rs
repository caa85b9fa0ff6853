//! Memory for the buffers that grow with the grid. The system may have none: that is said, not a crash.
use crate::failure::Failure;

pub fn zeros<T: Clone + Default>(count: usize) -> Result<Vec<T>, Failure> {
    let mut buffer = Vec::new();
    buffer.try_reserve_exact(count).map_err(|_| Failure::NoMemory(count * size_of::<T>()))?;
    buffer.resize(count, T::default());
    Ok(buffer)
}

/// Room for some more behind what a buffer has.
pub fn room<T>(buffer: &mut Vec<T>, more: usize) -> Result<(), Failure> {
    buffer.try_reserve(more).map_err(|_| Failure::NoMemory((buffer.len() + more) * size_of::<T>()))
}
