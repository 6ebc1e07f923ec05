//! The proved archives, by their C interface (include/smrcholet.h).

/// The header's bool, read as an octet: one other than 0 or 1 is then seen.
pub type Bool = u8;

#[repr(C)]
#[derive(Clone, Copy, Debug, Default, PartialEq, Eq)]
pub struct Span {
    pub start: usize,
    pub end: usize,
}

#[repr(C)]
#[derive(Clone, Copy, Debug, Default, PartialEq, Eq)]
pub struct Component {
    pub kind: u8,
    pub has_id: Bool,
    pub id: i8,
    pub has_linked: Bool,
    pub linked: i8,
    pub has_operation: Bool,
    pub operation: u8,
    pub code: u8,
    pub tag: u8,
    pub problem: u8,
    pub parameter: Span,
}

#[repr(C)]
#[derive(Clone, Copy, Debug, Default, PartialEq, Eq)]
pub struct Text {
    pub is_there: Bool,
    pub scheme: u8,
    pub string: Span,
    pub tail: Span,
}

#[repr(C)]
#[derive(Clone, Copy, Debug, Default, PartialEq, Eq)]
pub struct Cause {
    pub is_there: Bool,
    pub contents: Span,
}

#[repr(C)]
#[derive(Clone, Copy, Debug, Default, PartialEq, Eq)]
pub struct Received {
    pub code: u8,
    pub written: usize,
    pub shown: Component,
    pub text: Text,
    pub cause: Cause,
}

#[repr(C)]
#[derive(Clone, Copy, Debug, Default, PartialEq, Eq)]
pub struct Called {
    pub code: u8,
    pub value: u8,
    pub written: usize,
}

#[repr(C)]
#[derive(Clone, Copy, Debug, Default, PartialEq, Eq)]
pub struct Batched {
    pub code: u8,
    pub slots: usize,
}

#[repr(C)]
#[derive(Clone, Copy, Debug, Default, PartialEq, Eq)]
pub struct Laid {
    pub code: u8,
    pub characters: usize,
    pub lines: usize,
}

#[repr(C)]
#[derive(Clone, Copy, Debug, Default, PartialEq, Eq)]
pub struct Traced {
    pub code: u8,
    pub added: Bool,
}

extern "C" {
    fn smr_receive(
        table: *mut u8,
        table_length: usize,
        message: *const u8,
        message_length: usize,
        reply: *mut u8,
        reply_length: usize,
    ) -> Received;

    fn smr_batch(
        table: *mut u8,
        table_length: usize,
        records: *const u8,
        records_length: usize,
        output: *mut u8,
        output_length: usize,
    ) -> Batched;

    fn smr_begin(
        table: *mut u8,
        table_length: usize,
        operation: u8,
        id: i8,
        parameter: *const u8,
        parameter_length: usize,
        buffer: *mut u8,
        buffer_length: usize,
    ) -> Called;

    fn smr_invoke(
        table: *mut u8,
        table_length: usize,
        flag: u8,
        value: u8,
        operation: u8,
        id: i8,
        parameter: *const u8,
        parameter_length: usize,
        buffer: *mut u8,
        buffer_length: usize,
    ) -> Called;

    fn smr_result(
        table: *mut u8,
        table_length: usize,
        flag: u8,
        value: u8,
        id: i8,
        parameter: *const u8,
        parameter_length: usize,
        buffer: *mut u8,
        buffer_length: usize,
    ) -> Called;

    fn smr_error(
        table: *mut u8,
        table_length: usize,
        flag: u8,
        value: u8,
        id: i8,
        code: u8,
        parameter: *const u8,
        parameter_length: usize,
        buffer: *mut u8,
        buffer_length: usize,
    ) -> Called;

    fn smr_release(
        table: *mut u8,
        table_length: usize,
        flag: u8,
        value: u8,
        buffer: *mut u8,
        buffer_length: usize,
    ) -> Called;

    fn smr_cells(
        scheme: u8,
        string: *const u8,
        string_length: usize,
        text: *mut u16,
        text_length: usize,
        lines: *mut u8,
        lines_length: usize,
    ) -> Laid;

    fn smr_trace_begin(block: *mut u8, block_length: usize, number: u32) -> Traced;

    fn smr_trace_add(
        block: *mut u8,
        block_length: usize,
        direction: u8,
        message: *const u8,
        message_length: usize,
    ) -> Traced;
}

pub fn receive(table: &mut [u8], message: &[u8], reply: &mut [u8]) -> Received {
    // SAFETY: each pointer goes with its slice's own length, no two overlap, and
    // the archive keeps none of them. The same holds for every call below.
    unsafe {
        smr_receive(
            table.as_mut_ptr(),
            table.len(),
            message.as_ptr(),
            message.len(),
            reply.as_mut_ptr(),
            reply.len(),
        )
    }
}

pub fn batch(table: &mut [u8], records: &[u8], output: &mut [u8]) -> Batched {
    // SAFETY: as in `receive`.
    unsafe {
        smr_batch(
            table.as_mut_ptr(),
            table.len(),
            records.as_ptr(),
            records.len(),
            output.as_mut_ptr(),
            output.len(),
        )
    }
}

/// The same, each slice of length 0 lent as NULL.
pub fn batch_with_null(table: &mut [u8], records: &[u8], output: &mut [u8]) -> Batched {
    let lent = |slice: &mut [u8]| match slice {
        [] => std::ptr::null_mut(),
        _ => slice.as_mut_ptr(),
    };
    let octets = match records {
        [] => std::ptr::null(),
        _ => records.as_ptr(),
    };
    // SAFETY: as in `receive`; "NULL is allowed where the length is 0".
    unsafe {
        smr_batch(
            lent(table),
            table.len(),
            octets,
            records.len(),
            lent(output),
            output.len(),
        )
    }
}

pub fn begin(
    table: &mut [u8],
    operation: u8,
    id: i8,
    parameter: &[u8],
    buffer: &mut [u8],
) -> Called {
    // SAFETY: as in `receive`.
    unsafe {
        smr_begin(
            table.as_mut_ptr(),
            table.len(),
            operation,
            id,
            parameter.as_ptr(),
            parameter.len(),
            buffer.as_mut_ptr(),
            buffer.len(),
        )
    }
}

pub fn invoke(
    table: &mut [u8],
    (flag, value): (u8, u8),
    operation: u8,
    id: i8,
    parameter: &[u8],
    buffer: &mut [u8],
) -> Called {
    // SAFETY: as in `receive`.
    unsafe {
        smr_invoke(
            table.as_mut_ptr(),
            table.len(),
            flag,
            value,
            operation,
            id,
            parameter.as_ptr(),
            parameter.len(),
            buffer.as_mut_ptr(),
            buffer.len(),
        )
    }
}

pub fn result(
    table: &mut [u8],
    (flag, value): (u8, u8),
    id: i8,
    parameter: &[u8],
    buffer: &mut [u8],
) -> Called {
    // SAFETY: as in `receive`.
    unsafe {
        smr_result(
            table.as_mut_ptr(),
            table.len(),
            flag,
            value,
            id,
            parameter.as_ptr(),
            parameter.len(),
            buffer.as_mut_ptr(),
            buffer.len(),
        )
    }
}

pub fn error(
    table: &mut [u8],
    (flag, value): (u8, u8),
    id: i8,
    code: u8,
    parameter: &[u8],
    buffer: &mut [u8],
) -> Called {
    // SAFETY: as in `receive`.
    unsafe {
        smr_error(
            table.as_mut_ptr(),
            table.len(),
            flag,
            value,
            id,
            code,
            parameter.as_ptr(),
            parameter.len(),
            buffer.as_mut_ptr(),
            buffer.len(),
        )
    }
}

pub fn release(table: &mut [u8], (flag, value): (u8, u8), buffer: &mut [u8]) -> Called {
    // SAFETY: as in `receive`.
    unsafe {
        smr_release(
            table.as_mut_ptr(),
            table.len(),
            flag,
            value,
            buffer.as_mut_ptr(),
            buffer.len(),
        )
    }
}

pub fn cells(scheme: u8, string: &[u8], text: &mut [u16], lines: &mut [u8]) -> Laid {
    // SAFETY: as in `receive`.
    unsafe {
        smr_cells(
            scheme,
            string.as_ptr(),
            string.len(),
            text.as_mut_ptr(),
            text.len(),
            lines.as_mut_ptr(),
            lines.len(),
        )
    }
}

/// A string and a text of length 0, and lines if they are empty too, lent as NULL.
pub fn cells_of_null(scheme: u8, lines: &mut [u8]) -> Laid {
    let (string, text) = (std::ptr::null(), std::ptr::null_mut());
    let octets = match lines {
        [] => std::ptr::null_mut(),
        _ => lines.as_mut_ptr(),
    };
    // SAFETY: as in `receive`; "NULL is allowed where the length is 0".
    unsafe { smr_cells(scheme, string, 0, text, 0, octets, lines.len()) }
}

pub fn trace_begin(block: &mut [u8], number: u32) -> Traced {
    // SAFETY: as in `receive`.
    unsafe { smr_trace_begin(block.as_mut_ptr(), block.len(), number) }
}

pub fn trace_add(block: &mut [u8], direction: u8, message: &[u8]) -> Traced {
    // SAFETY: as in `receive`.
    unsafe {
        smr_trace_add(
            block.as_mut_ptr(),
            block.len(),
            direction,
            message.as_ptr(),
            message.len(),
        )
    }
}

/// A block of length 0, lent as NULL.
pub fn trace_begin_of_null(number: u32) -> Traced {
    // SAFETY: "NULL is allowed where the length is 0".
    unsafe { smr_trace_begin(std::ptr::null_mut(), 0, number) }
}

/// The same as `trace_add`, each slice of length 0 lent as NULL.
pub fn trace_add_with_null(block: &mut [u8], direction: u8, message: &[u8]) -> Traced {
    let lent = match block {
        [] => std::ptr::null_mut(),
        _ => block.as_mut_ptr(),
    };
    let octets = match message {
        [] => std::ptr::null(),
        _ => message.as_ptr(),
    };
    // SAFETY: as in `receive`; "NULL is allowed where the length is 0".
    unsafe { smr_trace_add(lent, block.len(), direction, octets, message.len()) }
}
