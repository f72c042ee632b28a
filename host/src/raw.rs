//! The library's calls as they are: slices in, document numbers out. The rest of the package is written over these; they are there
//! for callers that keep the numbers, and for comparisons.
//!
//! Each answer is filled beforehand with what the library never gives, so that an entry left out would show. A line is the caller's
//! own: the call takes its key or its cursors from it.

extern "C" {
    fn kribbelsteen_read(
        mode: u32,
        text: *const u8,
        text_len: usize,
        records: *mut u32,
        records_len: usize,
        reals: *mut f64,
        reals_len: usize,
        pairs: *mut u32,
        pairs_len: usize,
        answer: *mut usize,
    ) -> u32;
    fn kribbelsteen_read_indexed(
        mode: u32,
        text: *const u8,
        text_len: usize,
        records: *mut u32,
        records_len: usize,
        reals: *mut f64,
        reals_len: usize,
        pairs: *mut u32,
        pairs_len: usize,
        index: *mut u32,
        index_len: usize,
        answer: *mut usize,
    ) -> u32;
    fn kribbelsteen_name(
        text: *const u8,
        text_len: usize,
        records: *const u32,
        records_len: usize,
        count: usize,
        number: usize,
        answer: *mut usize,
    ) -> u32;
    fn kribbelsteen_finish(
        records: *const u32,
        records_len: usize,
        count: usize,
        number: usize,
        allowance: usize,
        answer: *mut usize,
    ) -> u32;
    fn kribbelsteen_shown(
        records: *const u32,
        records_len: usize,
        pairs: *const u32,
        pairs_len: usize,
        count: usize,
        number: usize,
        list: *mut u32,
        list_len: usize,
        answer: *mut usize,
    ) -> u32;
    fn kribbelsteen_mattered(
        text: *const u8,
        text_len: usize,
        records: *const u32,
        records_len: usize,
        count: usize,
        first: usize,
        second: usize,
        answer: *mut usize,
    ) -> u32;
    fn kribbelsteen_next_word(text: *const u8, text_len: usize, at: usize, answer: *mut usize);
    fn kribbelsteen_read_both(
        mode: u32,
        left: *const u8,
        left_len: usize,
        left_records: *mut u32,
        left_records_len: usize,
        left_reals: *mut f64,
        left_reals_len: usize,
        right: *const u8,
        right_len: usize,
        right_records: *mut u32,
        right_records_len: usize,
        right_reals: *mut f64,
        right_reals_len: usize,
        answer: *mut usize,
    ) -> u32;
    fn kribbelsteen_next_line(
        left: *const u8,
        left_len: usize,
        left_records: *const u32,
        left_records_len: usize,
        left_reals: *const f64,
        left_reals_len: usize,
        right: *const u8,
        right_len: usize,
        right_records: *const u32,
        right_records_len: usize,
        right_reals: *const f64,
        right_reals_len: usize,
        line: *mut usize,
    ) -> u32;
    fn kribbelsteen_order_names(
        text: *const u8,
        text_len: usize,
        records: *const u32,
        records_len: usize,
        order: *mut u32,
        order_len: usize,
        scratch: *mut u32,
        scratch_len: usize,
    );
    fn kribbelsteen_next_ordered(
        left: *const u8,
        left_len: usize,
        left_records: *const u32,
        left_records_len: usize,
        left_reals: *const f64,
        left_reals_len: usize,
        left_order: *const u32,
        left_order_len: usize,
        right: *const u8,
        right_len: usize,
        right_records: *const u32,
        right_records_len: usize,
        right_reals: *const f64,
        right_reals_len: usize,
        right_order: *const u32,
        right_order_len: usize,
        line: *mut usize,
    ) -> u32;
    fn kribbelsteen_write(
        mode: u32,
        text: *const u8,
        text_len: usize,
        records: *const u32,
        records_len: usize,
        reals: *const f64,
        reals_len: usize,
        out: *mut u8,
        out_len: usize,
        answer: *mut usize,
    ) -> u32;
    fn kribbelsteen_move_glass(
        mode: u32,
        direction: u32,
        text: *const u8,
        text_len: usize,
        records: *const u32,
        records_len: usize,
        reals: *const f64,
        reals_len: usize,
        out: *mut u8,
        out_len: usize,
        answer: *mut usize,
    ) -> u32;
    fn kribbelsteen_sort(
        mode: u32,
        text: *const u8,
        text_len: usize,
        records: *const u32,
        records_len: usize,
        reals: *const f64,
        reals_len: usize,
        out: *mut u8,
        out_len: usize,
        answer: *mut usize,
    ) -> u32;
    fn kribbelsteen_join(
        mode: u32,
        base: *const u8,
        base_len: usize,
        left: *const u8,
        left_len: usize,
        right: *const u8,
        right_len: usize,
        records: *mut u32,
        records_len: usize,
        reals: *mut f64,
        reals_len: usize,
        out: *mut u8,
        out_len: usize,
        answer: *mut usize,
    ) -> u32;
    fn kribbelsteen_check_join(
        mode: u32,
        base: *const u8,
        base_len: usize,
        left: *const u8,
        left_len: usize,
        right: *const u8,
        right_len: usize,
        typed: *const u8,
        typed_len: usize,
        records: *mut u32,
        records_len: usize,
        reals: *mut f64,
        reals_len: usize,
        out: *mut u8,
        out_len: usize,
        answer: *mut usize,
    ) -> u32;
    fn kribbelsteen_sphere(ray: *const f64, sphere: *const f64, answer: *mut f64) -> u32;
    fn kribbelsteen_sphere_above(ray: *const f64, sphere: *const f64, least: f64, answer: *mut f64) -> u32;
    fn kribbelsteen_ring(ray: *const f64, ring: *const f64, answer: *mut f64) -> u32;
    fn kribbelsteen_ring_above(ray: *const f64, ring: *const f64, least: f64, answer: *mut f64) -> u32;
    fn kribbelsteen_polygon(ray: *const f64, corners: *const f64, corners_len: usize, answer: *mut f64) -> u32;
    fn kribbelsteen_polygon_above(
        ray: *const f64,
        corners: *const f64,
        corners_len: usize,
        least: f64,
        answer: *mut f64,
    ) -> u32;
    fn kribbelsteen_polygon_in_table(
        ray: *const f64,
        records: *const u32,
        records_len: usize,
        count: usize,
        number: usize,
        reals: *const f64,
        reals_len: usize,
        answer: *mut f64,
    ) -> u32;
    fn kribbelsteen_polygon_in_table_above(
        ray: *const f64,
        records: *const u32,
        records_len: usize,
        count: usize,
        number: usize,
        reals: *const f64,
        reals_len: usize,
        least: f64,
        answer: *mut f64,
    ) -> u32;
    fn kribbelsteen_fresnel(cos1: f64, n1: f64, n2: f64, answer: *mut f64) -> u32;
    fn kribbelsteen_pane_factors(te: f64, tm: f64, ct: f64, answer: *mut f64) -> u32;
    fn kribbelsteen_transmissivity(transmittance: f64, answer: *mut f64) -> u32;
    fn kribbelsteen_root(x: f64) -> f64;
}

/// Reads a scene in the mode of a number: the reason, 0 if accepted; then place, primitives and reals.
pub fn read(mode: u32, text: &[u8], records: &mut [u32], reals: &mut [f64], pairs: &mut [u32]) -> (u32, [usize; 3]) {
    let mut answer = [usize::MAX; 3];
    // SAFETY: each pointer and length is that of a slice, the answer has three entries, and the borrows keep what is written apart.
    let reason = unsafe {
        kribbelsteen_read(
            mode,
            text.as_ptr(),
            text.len(),
            records.as_mut_ptr(),
            records.len(),
            reals.as_mut_ptr(),
            reals.len(),
            pairs.as_mut_ptr(),
            pairs.len(),
            answer.as_mut_ptr(),
        )
    };
    (reason, answer)
}

/// Reads a scene in the mode of a number, with a lent index of names: the reason, 0 if accepted; then place, primitives, reals and
/// how many entries of the index were looked at.
pub fn read_indexed(
    mode: u32,
    text: &[u8],
    records: &mut [u32],
    reals: &mut [f64],
    pairs: &mut [u32],
    index: &mut [u32],
) -> (u32, [usize; 4]) {
    let mut answer = [usize::MAX; 4];
    // SAFETY: each pointer and length is that of a slice, the answer has four entries, and the borrows keep what is written apart.
    let reason = unsafe {
        kribbelsteen_read_indexed(
            mode,
            text.as_ptr(),
            text.len(),
            records.as_mut_ptr(),
            records.len(),
            reals.as_mut_ptr(),
            reals.len(),
            pairs.as_mut_ptr(),
            pairs.len(),
            index.as_mut_ptr(),
            index.len(),
            answer.as_mut_ptr(),
        )
    };
    (reason, answer)
}

/// The name of a primitive: a refusal's number, 0 for none; then place and length.
pub fn name(text: &[u8], records: &[u32], count: usize, number: usize) -> (u32, [usize; 2]) {
    let mut answer = [usize::MAX; 2];
    // SAFETY: each pointer and length is that of a slice, and only the answer, which has two entries, is written.
    let reason = unsafe {
        kribbelsteen_name(
            text.as_ptr(),
            text.len(),
            records.as_ptr(),
            records.len(),
            count,
            number,
            answer.as_mut_ptr(),
        )
    };
    (reason, answer)
}

/// The finish of a primitive: a refusal's number, 0 for none; then material and links.
pub fn finish(records: &[u32], count: usize, number: usize, allowance: usize) -> (u32, [usize; 2]) {
    let mut answer = [usize::MAX; 2];
    // SAFETY: pointer and length are those of a slice, and only the answer, which has two entries, is written.
    let reason =
        unsafe { kribbelsteen_finish(records.as_ptr(), records.len(), count, number, allowance, answer.as_mut_ptr()) };
    (reason, answer)
}

/// The materials that a primitive may show, into a lent list: a refusal's number, 0 for none; then how many are listed.
pub fn shown(records: &[u32], pairs: &[u32], count: usize, number: usize, list: &mut [u32]) -> (u32, usize) {
    let mut answer = [usize::MAX];
    // SAFETY: each pointer and length is that of a slice, the answer has one entry, and the borrows keep what is written apart.
    let reason = unsafe {
        kribbelsteen_shown(
            records.as_ptr(),
            records.len(),
            pairs.as_ptr(),
            pairs.len(),
            count,
            number,
            list.as_mut_ptr(),
            list.len(),
            answer.as_mut_ptr(),
        )
    };
    (reason, answer[0])
}

/// Whether the order of two primitives mattered: 0 if nothing holds it, 1 if it is held, or 17 or 18; then what it is held by and whose
/// name binds the upper one and that, both 0 if nothing does.
pub fn mattered(text: &[u8], records: &[u32], count: usize, first: usize, second: usize) -> (u32, [usize; 2]) {
    let mut answer = [usize::MAX; 2];
    // SAFETY: each pointer and length is that of a slice, and only the answer, which has two entries, is written.
    let outcome = unsafe {
        kribbelsteen_mattered(
            text.as_ptr(),
            text.len(),
            records.as_ptr(),
            records.len(),
            count,
            first,
            second,
            answer.as_mut_ptr(),
        )
    };
    (outcome, answer)
}

/// Place and length of the word at or after a place; the text's length and 0 if there is none.
pub fn next_word(text: &[u8], at: usize) -> [usize; 2] {
    let mut answer = [usize::MAX; 2];
    // SAFETY: pointer and length are those of a slice, and only the answer, which has two entries, is written.
    unsafe { kribbelsteen_next_word(text.as_ptr(), text.len(), at, answer.as_mut_ptr()) };
    answer
}

/// Reads two scenes in the mode of a number, the left one first: the reason, 0 if both are accepted; then side and place of the refusal, and primitives and
/// reals of the left scene and of the right one.
pub fn read_both(
    mode: u32,
    left: &[u8],
    left_records: &mut [u32],
    left_reals: &mut [f64],
    right: &[u8],
    right_records: &mut [u32],
    right_reals: &mut [f64],
) -> (u32, [usize; 6]) {
    let mut answer = [usize::MAX; 6];
    // SAFETY: each pointer and length is that of a slice, the answer has six entries, and the borrows keep what is written apart.
    let reason = unsafe {
        kribbelsteen_read_both(
            mode,
            left.as_ptr(),
            left.len(),
            left_records.as_mut_ptr(),
            left_records.len(),
            left_reals.as_mut_ptr(),
            left_reals.len(),
            right.as_ptr(),
            right.len(),
            right_records.as_mut_ptr(),
            right_records.len(),
            right_reals.as_mut_ptr(),
            right_reals.len(),
            answer.as_mut_ptr(),
        )
    };
    (reason, answer)
}

/// The next line of a comparison: 1, or 0 where there is none. The line's entries are side, number, nth and state, all 0 at the end;
/// the first two say from which key to go on.
pub fn next_line(
    left: &[u8],
    left_records: &[u32],
    left_reals: &[f64],
    right: &[u8],
    right_records: &[u32],
    right_reals: &[f64],
    line: &mut [usize; 4],
) -> u32 {
    // SAFETY: each pointer and length is that of a slice, and only the line, which has four entries, is written.
    unsafe {
        kribbelsteen_next_line(
            left.as_ptr(),
            left.len(),
            left_records.as_ptr(),
            left_records.len(),
            left_reals.as_ptr(),
            left_reals.len(),
            right.as_ptr(),
            right.len(),
            right_records.as_ptr(),
            right_records.len(),
            right_reals.as_ptr(),
            right_reals.len(),
            line.as_mut_ptr(),
        )
    }
}

/// Puts the names of a scene in order: the numbers of its records in the first half of the order, and which definition of its name
/// each is in the rest. The scratch is zero afterwards.
pub fn order_names(text: &[u8], records: &[u32], order: &mut [u32], scratch: &mut [u32]) {
    // SAFETY: each pointer and length is that of a slice, and the borrows keep what is written apart.
    unsafe {
        kribbelsteen_order_names(
            text.as_ptr(),
            text.len(),
            records.as_ptr(),
            records.len(),
            order.as_mut_ptr(),
            order.len(),
            scratch.as_mut_ptr(),
            scratch.len(),
        )
    }
}

/// A text, its tables and an order of its names, as they are lent.
#[derive(Clone, Copy, Debug)]
pub struct Ordered<'s> {
    /// The text.
    pub text: &'s [u8],
    /// Its records, up to the last one.
    pub records: &'s [u32],
    /// Its reals.
    pub reals: &'s [f64],
    /// What [`order_names`] gives in two entries for each record, or anything else.
    pub order: &'s [u32],
}

/// The next line of a comparison along an order of each scene: 1, or 0 where there is none. The line's entries are left and right
/// cursor, side, number, nth and state, all 0 at the end; the first two say from where to go on.
pub fn next_ordered(left: Ordered, right: Ordered, line: &mut [usize; 6]) -> u32 {
    // SAFETY: each pointer and length is that of a slice, and only the line, which has six entries, is written.
    unsafe {
        kribbelsteen_next_ordered(
            left.text.as_ptr(),
            left.text.len(),
            left.records.as_ptr(),
            left.records.len(),
            left.reals.as_ptr(),
            left.reals.len(),
            left.order.as_ptr(),
            left.order.len(),
            right.text.as_ptr(),
            right.text.len(),
            right.records.as_ptr(),
            right.records.len(),
            right.reals.as_ptr(),
            right.reals.len(),
            right.order.as_ptr(),
            right.order.len(),
            line.as_mut_ptr(),
        )
    }
}

/// Writes a scene out, read in the mode of a number: the reason, 0 if it is written; then place and length.
pub fn write(mode: u32, text: &[u8], records: &[u32], reals: &[f64], out: &mut [u8]) -> (u32, [usize; 2]) {
    let mut answer = [usize::MAX; 2];
    // SAFETY: each pointer and length is that of a slice, the answer has two entries, and the borrows keep what is written apart.
    let reason = unsafe {
        kribbelsteen_write(
            mode,
            text.as_ptr(),
            text.len(),
            records.as_ptr(),
            records.len(),
            reals.as_ptr(),
            reals.len(),
            out.as_mut_ptr(),
            out.len(),
            answer.as_mut_ptr(),
        )
    };
    (reason, answer)
}

/// Writes a scene out with its glass moved in the direction of a number: as for `write`.
pub fn move_glass(
    mode: u32,
    direction: u32,
    text: &[u8],
    records: &[u32],
    reals: &[f64],
    out: &mut [u8],
) -> (u32, [usize; 2]) {
    let mut answer = [usize::MAX; 2];
    // SAFETY: each pointer and length is that of a slice, the answer has two entries, and the borrows keep what is written apart.
    let reason = unsafe {
        kribbelsteen_move_glass(
            mode,
            direction,
            text.as_ptr(),
            text.len(),
            records.as_ptr(),
            records.len(),
            reals.as_ptr(),
            reals.len(),
            out.as_mut_ptr(),
            out.len(),
            answer.as_mut_ptr(),
        )
    };
    (reason, answer)
}

/// Writes a scene out with its statements sorted: as for `write`.
pub fn sort(mode: u32, text: &[u8], records: &[u32], reals: &[f64], out: &mut [u8]) -> (u32, [usize; 2]) {
    let mut answer = [usize::MAX; 2];
    // SAFETY: each pointer and length is that of a slice, the answer has two entries, and the borrows keep what is written apart.
    let reason = unsafe {
        kribbelsteen_sort(
            mode,
            text.as_ptr(),
            text.len(),
            records.as_ptr(),
            records.len(),
            reals.as_ptr(),
            reals.len(),
            out.as_mut_ptr(),
            out.len(),
            answer.as_mut_ptr(),
        )
    };
    (reason, answer)
}

/// Joins a base and its left and right edit, read in the mode of a number: the reason, 0 if they are joined; then the text that a refusal
/// names, its place, and length, primitives and reals of the joined text.
pub fn join(
    mode: u32,
    [base, left, right]: [&[u8]; 3],
    records: &mut [u32],
    reals: &mut [f64],
    out: &mut [u8],
) -> (u32, [usize; 5]) {
    let mut answer = [usize::MAX; 5];
    // SAFETY: each pointer and length is that of a slice, the answer has five entries, and the borrows keep what is written apart.
    let reason = unsafe {
        kribbelsteen_join(
            mode,
            base.as_ptr(),
            base.len(),
            left.as_ptr(),
            left.len(),
            right.as_ptr(),
            right.len(),
            records.as_mut_ptr(),
            records.len(),
            reals.as_mut_ptr(),
            reals.len(),
            out.as_mut_ptr(),
            out.len(),
            answer.as_mut_ptr(),
        )
    };
    (reason, answer)
}

/// Checks a text typed as the join of a base and its left and right edit: as for `join`.
pub fn check_join(
    mode: u32,
    [base, left, right]: [&[u8]; 3],
    typed: &[u8],
    records: &mut [u32],
    reals: &mut [f64],
    out: &mut [u8],
) -> (u32, [usize; 5]) {
    let mut answer = [usize::MAX; 5];
    // SAFETY: each pointer and length is that of a slice, the answer has five entries, and the borrows keep what is written apart.
    let reason = unsafe {
        kribbelsteen_check_join(
            mode,
            base.as_ptr(),
            base.len(),
            left.as_ptr(),
            left.len(),
            right.as_ptr(),
            right.len(),
            typed.as_ptr(),
            typed.len(),
            records.as_mut_ptr(),
            records.len(),
            reals.as_mut_ptr(),
            reals.len(),
            out.as_mut_ptr(),
            out.len(),
            answer.as_mut_ptr(),
        )
    };
    (reason, answer)
}

/// A ray (origin, direction) and a sphere (centre, radius): 0 for a hit, 1 for a miss, or 20 or 21; then the distance, 0 if none.
pub fn sphere(ray: &[f64; 6], sphere: &[f64; 4]) -> (u32, f64) {
    let mut answer = [f64::NAN];
    // SAFETY: the arrays have the lengths that the call reads and writes, and only the answer is written.
    let outcome = unsafe { kribbelsteen_sphere(ray.as_ptr(), sphere.as_ptr(), answer.as_mut_ptr()) };
    (outcome, answer[0])
}

/// The same above a least distance.
pub fn sphere_above(ray: &[f64; 6], sphere: &[f64; 4], least: f64) -> (u32, f64) {
    let mut answer = [f64::NAN];
    // SAFETY: as for `sphere`.
    let outcome = unsafe { kribbelsteen_sphere_above(ray.as_ptr(), sphere.as_ptr(), least, answer.as_mut_ptr()) };
    (outcome, answer[0])
}

/// A ray (origin, direction) and a ring (centre, normal, inner, outer): as for a sphere.
pub fn ring(ray: &[f64; 6], ring: &[f64; 8]) -> (u32, f64) {
    let mut answer = [f64::NAN];
    // SAFETY: the arrays have the lengths that the call reads and writes, and only the answer is written.
    let outcome = unsafe { kribbelsteen_ring(ray.as_ptr(), ring.as_ptr(), answer.as_mut_ptr()) };
    (outcome, answer[0])
}

/// The same above a least distance.
pub fn ring_above(ray: &[f64; 6], ring: &[f64; 8], least: f64) -> (u32, f64) {
    let mut answer = [f64::NAN];
    // SAFETY: as for `ring`.
    let outcome = unsafe { kribbelsteen_ring_above(ray.as_ptr(), ring.as_ptr(), least, answer.as_mut_ptr()) };
    (outcome, answer[0])
}

/// A ray (origin, direction) and the corners of a polygon, three doubles each: as for a sphere.
pub fn polygon(ray: &[f64; 6], corners: &[f64]) -> (u32, f64) {
    let mut answer = [f64::NAN];
    // SAFETY: the arrays have the lengths that the call reads and writes, pointer and length are those of a slice, and only the answer
    // is written.
    let outcome = unsafe { kribbelsteen_polygon(ray.as_ptr(), corners.as_ptr(), corners.len(), answer.as_mut_ptr()) };
    (outcome, answer[0])
}

/// The same above a least distance.
pub fn polygon_above(ray: &[f64; 6], corners: &[f64], least: f64) -> (u32, f64) {
    let mut answer = [f64::NAN];
    let (at, len) = (corners.as_ptr(), corners.len());
    // SAFETY: as for `polygon`.
    let outcome = unsafe { kribbelsteen_polygon_above(ray.as_ptr(), at, len, least, answer.as_mut_ptr()) };
    (outcome, answer[0])
}

/// A ray (origin, direction) and a polygon of a table: as for a sphere, or 17 or 18.
pub fn polygon_in_table(ray: &[f64; 6], records: &[u32], count: usize, number: usize, reals: &[f64]) -> (u32, f64) {
    let mut answer = [f64::NAN];
    // SAFETY: the arrays have the lengths that the call reads and writes, each pointer and length is that of a slice, and only the
    // answer is written.
    let outcome = unsafe {
        kribbelsteen_polygon_in_table(
            ray.as_ptr(),
            records.as_ptr(),
            records.len(),
            count,
            number,
            reals.as_ptr(),
            reals.len(),
            answer.as_mut_ptr(),
        )
    };
    (outcome, answer[0])
}

/// The same above a least distance.
pub fn polygon_in_table_above(
    ray: &[f64; 6],
    records: &[u32],
    count: usize,
    number: usize,
    reals: &[f64],
    least: f64,
) -> (u32, f64) {
    let mut answer = [f64::NAN];
    // SAFETY: as for `polygon_in_table`.
    let outcome = unsafe {
        kribbelsteen_polygon_in_table_above(
            ray.as_ptr(),
            records.as_ptr(),
            records.len(),
            count,
            number,
            reals.as_ptr(),
            reals.len(),
            least,
            answer.as_mut_ptr(),
        )
    };
    (outcome, answer[0])
}

/// Fresnel: 0 for coefficients, 1 for total reflection, or 20 or 21; then FTE, FTM and F, all 0 if there are none.
pub fn fresnel(cos1: f64, n1: f64, n2: f64) -> (u32, [f64; 3]) {
    let mut answer = [f64::NAN; 3];
    // SAFETY: the answer has the three entries that the call writes.
    let outcome = unsafe { kribbelsteen_fresnel(cos1, n1, n2, answer.as_mut_ptr()) };
    (outcome, answer)
}

/// The factors of a pane, from FTE, FTM and Ct: 0, or 20 or 21; then through and back, both 0 if there are none.
pub fn pane_factors(te: f64, tm: f64, ct: f64) -> (u32, [f64; 2]) {
    let mut answer = [f64::NAN; 2];
    // SAFETY: the answer has the two entries that the call writes.
    let outcome = unsafe { kribbelsteen_pane_factors(te, tm, ct, answer.as_mut_ptr()) };
    (outcome, answer)
}

/// The transmissivity of a transmittance: 0, or 20 or 21; then the transmissivity, 0 if there is none.
pub fn transmissivity(transmittance: f64) -> (u32, f64) {
    let mut answer = [f64::NAN];
    // SAFETY: the answer has the one entry that the call writes.
    let outcome = unsafe { kribbelsteen_transmissivity(transmittance, answer.as_mut_ptr()) };
    (outcome, answer[0])
}

/// The root, rounded down; NaN where there is none.
pub fn root(x: f64) -> f64 {
    // SAFETY: the call takes and gives plain numbers.
    unsafe { kribbelsteen_root(x) }
}
