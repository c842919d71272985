//! The exported calls on slices: the one place of the library with `unsafe`.

#![allow(unsafe_code)]

/// The largest compiled or assembled object, prelude or block file, in bytes (docs/SIZES.md).
pub const FILE_LIMIT: usize = 1_048_576;

/// The least length of a draft's working buffer `table` (docs/SIZES.md).
pub const OPEN_TABLE: usize = 73_728;
/// The least length of a draft's working buffer `places`.
pub const PLACE_TABLE: usize = 32_768;

/// The longest path of a merge, in bytes (docs/SIZES.md).
pub const PATH_LIMIT: usize = 255;

/// The least length of a merge's working buffer `table` (docs/SIZES.md).
pub const BLOCK_BUFFER: usize = 147_456;
/// The least length of a merge's working buffer `places`.
pub const PLACE_BUFFER: usize = 57_344;
/// The least length of a merge's working buffer `steps`.
pub const STEP_BUFFER: usize = 328_511;
/// The least length of a merge's working buffer `index`.
pub const INDEX_BUFFER: usize = 57_344;

/// What a call gives back, as numbers. Accepted: number, object and place are 0. Refused: the
/// length is 0, and the others are those of document 01's table.
#[repr(C)]
#[derive(Clone, Copy, Debug, PartialEq, Eq, Hash)]
pub struct Outcome {
    /// How many bytes of the output are the result.
    pub length: u64,
    /// The number of the refusal.
    pub number: u32,
    /// 0 none, 1 C, 2 A.
    pub object: u32,
    /// What the table says for that number.
    pub place: u64,
}

mod library {
    use super::Outcome;

    unsafe extern "C" {
        pub fn draft(
            compiled: *const u8,
            compiled_length: usize,
            prelude: *const u8,
            prelude_length: usize,
            blocks: *const u8,
            blocks_length: usize,
            out: *mut u8,
            out_length: usize,
            table: *mut u8,
            table_length: usize,
            places: *mut u8,
            places_length: usize,
        ) -> Outcome;

        pub fn merge(
            compiled: *const u8,
            compiled_length: usize,
            assembled: *const u8,
            assembled_length: usize,
            blocks: *const u8,
            blocks_length: usize,
            path: *const u8,
            path_length: usize,
            flag: u32,
            mode: u32,
            out: *mut u8,
            out_length: usize,
            table: *mut u8,
            table_length: usize,
            places: *mut u8,
            places_length: usize,
            steps: *mut u8,
            steps_length: usize,
            index: *mut u8,
            index_length: usize,
        ) -> Outcome;
    }
}

/// Calls the proved draft. Every input and every length of a buffer has an answer, and the
/// buffers may hold anything. On return `table` and `places` are zeros, and so is `out` past the
/// length that is given back.
pub fn draft_into(
    compiled: &[u8],
    prelude: &[u8],
    blocks: &[u8],
    out: &mut [u8],
    table: &mut [u8],
    places: &mut [u8],
) -> Outcome {
    // SAFETY: each pointer comes from a slice and goes with that slice's length, so the bytes are
    // there for as long as the call runs, and it keeps no pointer. The three buffers it writes
    // are `&mut`: no other argument shares a byte with them. It asks nothing else of its caller;
    // that it stays inside these lengths for every input is part of its proof.
    unsafe {
        library::draft(
            compiled.as_ptr(),
            compiled.len(),
            prelude.as_ptr(),
            prelude.len(),
            blocks.as_ptr(),
            blocks.len(),
            out.as_mut_ptr(),
            out.len(),
            table.as_mut_ptr(),
            table.len(),
            places.as_mut_ptr(),
            places.len(),
        )
    }
}

/// What a merge is made of, as the exported call takes it: any bytes, any numbers.
#[derive(Clone, Copy, Debug, PartialEq, Eq, Hash)]
pub struct MergeInputs<'a> {
    /// C, the compiled object.
    pub compiled: &'a [u8],
    /// A, the assembled object.
    pub assembled: &'a [u8],
    /// The block file.
    pub blocks: &'a [u8],
    /// Stands before the names of statics in mode 3.
    pub path: &'a [u8],
    /// 1 drops trailing debug and gptab sections; 0 does not.
    pub flag: u32,
    /// 0 no, 1 local, 2 global, 3 global with filename.
    pub mode: u32,
}

/// The output of a merge and its working buffers.
#[derive(Debug)]
pub struct MergeBuffers<'a> {
    /// The output, of any length.
    pub out: &'a mut [u8],
    /// At least `BLOCK_BUFFER` bytes.
    pub table: &'a mut [u8],
    /// At least `PLACE_BUFFER` bytes.
    pub places: &'a mut [u8],
    /// At least `STEP_BUFFER` bytes.
    pub steps: &'a mut [u8],
    /// At least `INDEX_BUFFER` bytes.
    pub index: &'a mut [u8],
}

/// Calls the proved merge. Every input, every number and every length of a buffer has an answer,
/// and the buffers may hold anything. On return the working buffers are zeros, and so is `out`
/// past the length that is given back.
pub fn merge_into(inputs: &MergeInputs, buffers: MergeBuffers) -> Outcome {
    let MergeBuffers {
        out,
        table,
        places,
        steps,
        index,
    } = buffers;
    // SAFETY: as for `draft`. The five buffers are `&mut`, so that none shares a byte with another
    // or with an input.
    unsafe {
        library::merge(
            inputs.compiled.as_ptr(),
            inputs.compiled.len(),
            inputs.assembled.as_ptr(),
            inputs.assembled.len(),
            inputs.blocks.as_ptr(),
            inputs.blocks.len(),
            inputs.path.as_ptr(),
            inputs.path.len(),
            inputs.flag,
            inputs.mode,
            out.as_mut_ptr(),
            out.len(),
            table.as_mut_ptr(),
            table.len(),
            places.as_mut_ptr(),
            places.len(),
            steps.as_mut_ptr(),
            steps.len(),
            index.as_mut_ptr(),
            index.len(),
        )
    }
}
