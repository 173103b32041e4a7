//! The proved library through its C interface, `include/fadzgime.h`. A slice passes
//! as a pointer and a length. An answer is numbers in a lent slice; if that is too short
//! for all of them, nothing is done.

#![allow(unsafe_code)]

/// Numbers in the answer of [`monitor`]: refusal, place, first incoherent letter,
/// first infeasible letter before it.
pub const MONITOR_ANSWER: usize = 4;
/// Numbers in the answer of [`model`]: refusal, place, first infeasible letter,
/// bytes of the model.
pub const MODEL_ANSWER: usize = 4;
/// Numbers in the answer of [`read`]: refusal, place, registers, functions, points.
pub const READ_ANSWER: usize = 5;
/// Numbers in the answer of [`verdict`]: refusal, place, verdict (0 pass, 1 fail, 2
/// incoherent), pairs, letters of the execution that shows it.
pub const VERDICT_ANSWER: usize = 5;

/// Numbers in the answer of [`layout`]: refusal, place, bytes of the print.
pub const LAYOUT_ANSWER: usize = 3;

/// Bytes in which every answer of [`model`] fits.
pub const MODEL_OUTPUT: usize = 5_140;
/// Bytes in which every answer of [`verdict`] fits.
pub const VERDICT_OUTPUT: usize = 7_190;
/// Bytes of the longest print of [`layout`].
pub const LAYOUT_OUTPUT: usize = 4_096;

/// Numbers in the answer of [`write`]: refusal, place, bytes of the trace.
pub const WRITE_ANSWER: usize = 3;
/// Numbers in the answer of [`read_trace`]: refusal, place, registers, functions, mask
/// of the two-argument functions, letters.
pub const READ_TRACE_ANSWER: usize = 6;
/// Bytes of an unpacked letter: kind, function, target, first, second.
pub const UNPACKED_BYTES: usize = 5;
/// Numbers in the answer of [`monitor_start`] and [`monitor_step`]: refusal, place,
/// whether the monitor runs, whether it is infeasible.
pub const STEP_ANSWER: usize = 4;
/// Numbers in the answer of [`monitor_unequal`]: 0 or [`NO_STATE`], the word of unequal pairs.
pub const UNEQUAL_ANSWER: usize = 2;
/// Numbers in the answer of [`monitor_classes`]: 0 or [`NO_STATE`], the number of classes.
pub const CLASSES_ANSWER: usize = 2;
/// Numbers in the answer of [`stream_start`] and [`stream_push`]: 0 or [`NO_STATE`].
pub const PUSH_ANSWER: usize = 1;
/// What is answered for a state that is too short or of another kind.
pub const NO_STATE: u64 = 255;
/// Bytes of a monitor's state.
pub const MONITOR_STATE: usize = 319;
/// Bytes of a stream's state.
pub const STREAM_STATE: usize = 347;
/// The byte of a state that has the number of classes; only tests of damaged states look at it.
pub const CLASSES_BYTE: usize = 6;

mod foreign {
    #[cfg(feature = "linked")]
    unsafe extern "C" {
        #[cfg(feature = "monitor")]
        pub fn fadzgime_monitor(
            trace: *const u8,
            trace_length: usize,
            answer: *mut u64,
            answer_length: usize,
        );

        #[cfg(feature = "monitor")]
        pub fn fadzgime_write(
            registers: u8,
            functions: u8,
            binary: u8,
            letters: *const u8,
            letters_length: usize,
            out: *mut u8,
            out_length: usize,
            answer: *mut u64,
            answer_length: usize,
        );

        #[cfg(feature = "monitor")]
        pub fn fadzgime_read_trace(
            trace: *const u8,
            trace_length: usize,
            out: *mut u8,
            out_length: usize,
            answer: *mut u64,
            answer_length: usize,
        );

        #[cfg(feature = "monitor")]
        pub fn fadzgime_monitor_start(
            header: u16,
            state: *mut u8,
            state_length: usize,
            answer: *mut u64,
            answer_length: usize,
        );

        #[cfg(feature = "monitor")]
        pub fn fadzgime_monitor_step(
            letter: u16,
            state: *mut u8,
            state_length: usize,
            answer: *mut u64,
            answer_length: usize,
        );

        #[cfg(feature = "monitor")]
        pub fn fadzgime_monitor_unequal(
            state: *const u8,
            state_length: usize,
            answer: *mut u64,
            answer_length: usize,
        );

        #[cfg(feature = "monitor")]
        pub fn fadzgime_monitor_classes(
            state: *const u8,
            state_length: usize,
            answer: *mut u64,
            answer_length: usize,
        );

        #[cfg(feature = "monitor")]
        pub fn fadzgime_stream_start(
            state: *mut u8,
            state_length: usize,
            answer: *mut u64,
            answer_length: usize,
        );

        #[cfg(feature = "monitor")]
        pub fn fadzgime_stream_push(
            bytes: *const u8,
            bytes_length: usize,
            state: *mut u8,
            state_length: usize,
            answer: *mut u64,
            answer_length: usize,
        );

        #[cfg(feature = "monitor")]
        pub fn fadzgime_stream_finish(
            state: *const u8,
            state_length: usize,
            answer: *mut u64,
            answer_length: usize,
        );

        #[cfg(feature = "model")]
        pub fn fadzgime_model(
            trace: *const u8,
            trace_length: usize,
            out: *mut u8,
            out_length: usize,
            answer: *mut u64,
            answer_length: usize,
        );

        #[cfg(feature = "read")]
        pub fn fadzgime_read(text: *const u8, text_length: usize, answer: *mut u64, answer_length: usize);

        #[cfg(feature = "verdict")]
        pub fn fadzgime_verdict(
            text: *const u8,
            text_length: usize,
            table: *mut u8,
            table_length: usize,
            out: *mut u8,
            out_length: usize,
            answer: *mut u64,
            answer_length: usize,
        );

        #[cfg(feature = "layout")]
        pub fn fadzgime_layout(
            text: *const u8,
            text_length: usize,
            out: *mut u8,
            out_length: usize,
            answer: *mut u64,
            answer_length: usize,
        );
    }
}

/// The monitor's run over a packed trace.
#[cfg(feature = "monitor")]
pub fn monitor(trace: &[u8], answer: &mut [u64]) {
    // SAFETY: the pointers and lengths are those of slices that live through the call.
    unsafe { foreign::fadzgime_monitor(trace.as_ptr(), trace.len(), answer.as_mut_ptr(), answer.len()) }
}

/// The trace of a header and unpacked letters.
#[cfg(feature = "monitor")]
pub fn write(header: [u8; 3], letters: &[u8], out: &mut [u8], answer: &mut [u64]) {
    let [registers, functions, binary] = header;
    // SAFETY: the pointers and lengths are those of slices that live through the call
    // and do not overlap.
    unsafe {
        foreign::fadzgime_write(
            registers,
            functions,
            binary,
            letters.as_ptr(),
            letters.len(),
            out.as_mut_ptr(),
            out.len(),
            answer.as_mut_ptr(),
            answer.len(),
        );
    }
}

/// The unpacked letters of a packed trace.
#[cfg(feature = "monitor")]
pub fn read_trace(trace: &[u8], out: &mut [u8], answer: &mut [u64]) {
    // SAFETY: the pointers and lengths are those of slices that live through the call
    // and do not overlap.
    unsafe {
        foreign::fadzgime_read_trace(
            trace.as_ptr(),
            trace.len(),
            out.as_mut_ptr(),
            out.len(),
            answer.as_mut_ptr(),
            answer.len(),
        );
    }
}

/// The monitor's start with the word of a header.
#[cfg(feature = "monitor")]
pub fn monitor_start(header: u16, state: &mut [u8], answer: &mut [u64]) {
    let (pointer, length) = (state.as_mut_ptr(), state.len());
    // SAFETY: the pointers and lengths are those of slices that live through the call
    // and do not overlap.
    unsafe { foreign::fadzgime_monitor_start(header, pointer, length, answer.as_mut_ptr(), answer.len()) }
}

/// The monitor's step at the word of a letter.
#[cfg(feature = "monitor")]
pub fn monitor_step(letter: u16, state: &mut [u8], answer: &mut [u64]) {
    let (pointer, length) = (state.as_mut_ptr(), state.len());
    // SAFETY: the pointers and lengths are those of slices that live through the call
    // and do not overlap.
    unsafe { foreign::fadzgime_monitor_step(letter, pointer, length, answer.as_mut_ptr(), answer.len()) }
}

/// The unequal pairs of a monitor's window, as one word.
#[cfg(feature = "monitor")]
pub fn monitor_unequal(state: &[u8], answer: &mut [u64]) {
    // SAFETY: the pointers and lengths are those of slices that live through the call
    // and do not overlap.
    unsafe {
        foreign::fadzgime_monitor_unequal(state.as_ptr(), state.len(), answer.as_mut_ptr(), answer.len());
    }
}

/// The number of classes of a monitor's window.
#[cfg(feature = "monitor")]
pub fn monitor_classes(state: &[u8], answer: &mut [u64]) {
    // SAFETY: the pointers and lengths are those of slices that live through the call
    // and do not overlap.
    unsafe {
        foreign::fadzgime_monitor_classes(state.as_ptr(), state.len(), answer.as_mut_ptr(), answer.len());
    }
}

/// The run over a trace in parts: its start.
#[cfg(feature = "monitor")]
pub fn stream_start(state: &mut [u8], answer: &mut [u64]) {
    // SAFETY: the pointers and lengths are those of slices that live through the call
    // and do not overlap.
    unsafe {
        foreign::fadzgime_stream_start(state.as_mut_ptr(), state.len(), answer.as_mut_ptr(), answer.len());
    }
}

/// The run over a trace in parts: further bytes.
#[cfg(feature = "monitor")]
pub fn stream_push(bytes: &[u8], state: &mut [u8], answer: &mut [u64]) {
    // SAFETY: the pointers and lengths are those of slices that live through the call
    // and do not overlap.
    unsafe {
        foreign::fadzgime_stream_push(
            bytes.as_ptr(),
            bytes.len(),
            state.as_mut_ptr(),
            state.len(),
            answer.as_mut_ptr(),
            answer.len(),
        );
    }
}

/// The run over a trace in parts: its answer.
#[cfg(feature = "monitor")]
pub fn stream_finish(state: &[u8], answer: &mut [u64]) {
    // SAFETY: the pointers and lengths are those of slices that live through the call
    // and do not overlap.
    unsafe {
        foreign::fadzgime_stream_finish(state.as_ptr(), state.len(), answer.as_mut_ptr(), answer.len());
    }
}

/// The whole-trace engine over a packed trace.
#[cfg(feature = "model")]
pub fn model(trace: &[u8], out: &mut [u8], answer: &mut [u64]) {
    let (pointer, length) = (out.as_mut_ptr(), out.len());
    // SAFETY: the pointers and lengths are those of slices that live through the call
    // and do not overlap.
    unsafe {
        foreign::fadzgime_model(
            trace.as_ptr(),
            trace.len(),
            pointer,
            length,
            answer.as_mut_ptr(),
            answer.len(),
        );
    }
}

/// The reading of a macro.
#[cfg(feature = "read")]
pub fn read(text: &[u8], answer: &mut [u64]) {
    // SAFETY: the pointers and lengths are those of slices that live through the call.
    unsafe { foreign::fadzgime_read(text.as_ptr(), text.len(), answer.as_mut_ptr(), answer.len()) }
}

/// The verdict on a macro.
#[cfg(feature = "verdict")]
pub fn verdict(text: &[u8], table: &mut [u8], out: &mut [u8], answer: &mut [u64]) {
    // SAFETY: the pointers and lengths are those of slices that live through the call
    // and do not overlap.
    unsafe {
        foreign::fadzgime_verdict(
            text.as_ptr(),
            text.len(),
            table.as_mut_ptr(),
            table.len(),
            out.as_mut_ptr(),
            out.len(),
            answer.as_mut_ptr(),
            answer.len(),
        );
    }
}

/// The house layout of a macro.
#[cfg(feature = "layout")]
pub fn layout(text: &[u8], out: &mut [u8], answer: &mut [u64]) {
    let (pointer, length) = (out.as_mut_ptr(), out.len());
    // SAFETY: the pointers and lengths are those of slices that live through the call
    // and do not overlap.
    unsafe {
        foreign::fadzgime_layout(
            text.as_ptr(),
            text.len(),
            pointer,
            length,
            answer.as_mut_ptr(),
            answer.len(),
        );
    }
}
