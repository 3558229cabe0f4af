//! Runs calls with buffers that suffice in nearly all cases, so that the library does its work once.
use pigyelund_sys::{PIGY_OK, PIGY_TOO_SMALL};

/// A buffer for one output of a call.
pub(crate) struct Buffer<T> {
    pub(crate) start: *mut T,
    pub(crate) capacity: usize,
    /// Receives the length, written or required.
    pub(crate) len: usize,
}

/// Runs a call that writes elements to several outputs. The first call has buffers of these capacities. If one of them
/// is too small, the second call has buffers of the required capacities. Returns the status if it is neither `PIGY_OK`
/// nor `PIGY_TOO_SMALL`.
///
/// # Safety
///
/// If the call returns `PIGY_OK`, it has written the elements whose numbers it stored. They fit the buffers.
pub(crate) unsafe fn outputs<T, const N: usize>(
    capacities: [usize; N],
    mut call: impl FnMut(&mut [Buffer<T>; N]) -> u32,
) -> Result<[Vec<T>; N], u32> {
    let mut outputs = capacities.map(Vec::with_capacity);
    loop {
        let mut buffers = outputs.each_mut().map(|items| Buffer {
            start: items.as_mut_ptr(),
            capacity: items.capacity(),
            len: 0,
        });
        let status = call(&mut buffers);
        #[cfg(test)]
        crate::tests::count_call();
        let each = outputs.iter_mut().zip(buffers);
        match status {
            PIGY_OK => {
                for (items, buffer) in each {
                    // SAFETY: the elements are written, and fit the capacity.
                    unsafe { items.set_len(buffer.len) };
                    items.shrink_to_fit();
                }
                return Ok(outputs);
            }
            PIGY_TOO_SMALL => each.for_each(|(items, buffer)| items.reserve_exact(buffer.len)),
            status => return Err(status),
        }
    }
}

/// Runs a call that writes elements to one output, as [`outputs`] does.
///
/// The call gets a buffer, its capacity, and the object that receives the length.
///
/// # Safety
///
/// If the call returns `PIGY_OK`, it has written the elements whose number it stored. They fit the buffer.
pub(crate) unsafe fn items<T>(
    capacity: usize,
    mut call: impl FnMut(*mut T, usize, &mut usize) -> u32,
) -> Result<Vec<T>, u32> {
    // SAFETY: as the caller promises.
    let found = unsafe {
        outputs([capacity], |[out]| {
            call(out.start, out.capacity, &mut out.len)
        })
    };
    found.map(|[items]| items)
}
