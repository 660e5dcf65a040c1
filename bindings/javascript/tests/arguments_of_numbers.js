// Arguments for the calls over matrices, sparse bits, cursors, and blocks of bits and of sequences with their sections.
import assert from "node:assert/strict";
import { ANSWER, BITS, N, START, arena, library, put, r, slot, structs, words } from "./arena.js";

/** A matrix of 40 numbers of 7 bits in slot 42, of which a word after the directory may be wrong, and its struct: its words. */
function matrix(spoilt) {
    const block = slot(42);
    for (let i = 0; i < N; i++) words(slot(40), N)[i] = BigInt(r() % 128);
    assert.equal(library.bitm_matrix_size(BigInt(N), 7, 0, 0, BigInt(ANSWER)), 0);
    const size = words(ANSWER, 1)[0];
    assert.equal(library.bitm_matrix_build(BigInt(slot(40)), BigInt(N), 7, 0, 0, BigInt(slot(41)), BigInt(2 * N), BigInt(block), size), 0);
    assert.equal(library.bitm_matrix_open(BigInt(block), size, BigInt(slot(43))), 0);
    if (spoilt) words(block, Number(size))[32 + (r() % (Number(size) - 32))] ^= BigInt(r());
    return Number(size);
}

/** What a query of a matrix is asked, and what lists of queries have in common. */
function ofMatrix() {
    matrix(r() % 3 === 0);
    const number = r() % 4 ? Number(words(slot(40), N)[r() % N]) : r() % 140;
    return { matrix: slot(43), index: r() % (N + 5), number, rank: r() % 2, bound: r() % 140, start: r() % 30, end: 20 + (r() % 25), k: r() % 20 };
}
function ofMatrices() {
    const given = ofMatrix();
    for (let i = 0; i < N; i++) words(slot(46), N)[i] = words(slot(40), N)[r() % N];
    for (let i = 0; i < N; i++) words(slot(44), N)[i] = BigInt(r() % (N + 5));
    for (let i = 0; i < N; i++) words(slot(45), N)[i] = BigInt(r() % 3);
    return { ...given, numbers: slot(46), indices: slot(44), ranks: slot(45), out: slot(47), counts: slot(48) };
}
const ofMatrixBlock = () => ({ block: slot(42), block_len: matrix(r() % 3 === 0) - (r() % 7 ? 0 : 1), matrix: slot(49) });

/** The lists of what ranges of the matrix in slot 43 have. */
function ofRanges() {
    const room = r() % N, range = () => [r() % 30, 20 + (r() % 25)], [first_start, first_end] = range(), [second_start, second_end] = range();
    return { ...ofMatrix(), first_start, first_end, second_start, second_end, from: r() % 140, numbers: slot(46), numbers_len: room, counts: slot(47), counts_len: room + (r() % 7 ? 0 : 1) };
}

/** The block of the index in slot 3, or of the sequence in slot 8, in slot 51, of which a word may be wrong: its words. */
function blockOf(kind, spoilt) {
    const [first, second] = kind === "index" ? [BITS] : [60, Number(words(slot(14), 60)[59])], block = BigInt(slot(51));
    const sized = [first, second].filter(it => it !== undefined).map(BigInt);
    assert.equal(library[`bitm_${kind}_block_size`](...sized, BigInt(ANSWER)), 0);
    const size = words(ANSWER, 1)[0], from = kind === "index" ? [slot(0), N, BITS] : [slot(14), 60];
    assert.equal(library[`bitm_${kind}_block_build`](...from.map(BigInt), block, size), 0);
    const head = kind === "index" ? 32 : 40;
    if (spoilt) words(slot(51), Number(size))[head + (r() % (Number(size) - head))] ^= BigInt(r());
    return Number(size);
}
const ofBlockOf = kind => () => ({ block: slot(51), block_len: blockOf(kind, r() % 3 === 0) - (r() % 7 ? 0 : 1), index: slot(52), sequence: slot(52) });

/** What is asked of the sections of such a block: one more of samples or of bytes, and each. */
function ofSections() {
    const size = blockOf("sequence", r() % 3 === 0), role = r() % 2 ? 65536 + (r() % 9) : 7, count = r() % 60;
    const fits = library.bitm_block_extended_size(...[slot(51), size, role, count, ANSWER].map(BigInt)) === 0;
    const to_len = fits ? Number(words(ANSWER, 1)[0]) - (r() % 7 ? 0 : 1) : 0;
    const words_len = Math.ceil(count / (role === 7 ? 2 : 8)) + (r() % 7 ? 0 : 1);
    return { block: slot(51), block_len: size - (r() % 7 ? 0 : 1), role, count, words: slot(14), words_len, to: slot(53), to_len, i: r() % 7, section: slot(52) };
}

/** Sparse bits of 60 positions in slot 54, of which a word after the directory may be wrong, and their struct: its words. */
function sparse(spoilt) {
    const positions = words(slot(55), 60), block = slot(54);
    let next = 0n;
    for (let i = 0; i < 60; i++) positions[i] = next += BigInt(1 + (r() % 60));
    const bits = BigInt(BITS + 4000);
    assert.equal(library.bitm_sparse_size(60n, next, BigInt(ANSWER)), 0);
    const size = words(ANSWER, 1)[0];
    assert.equal(library.bitm_sparse_build(BigInt(slot(55)), 60n, bits, BigInt(block), size), 0);
    assert.equal(library.bitm_sparse_open(BigInt(block), size, BigInt(slot(56))), 0);
    if (spoilt) words(block, Number(size))[40 + (r() % (Number(size) - 40))] ^= BigInt(r());
    return Number(size);
}

/** What a query of sparse bits is asked, and what lists of queries have in common. */
const ofSparse = () => (sparse(r() % 3 === 0), { sparse: slot(56), position: r() % (BITS + 4010), rank: r() % 100, from: r() % (BITS + 4010) });
function ofSparseList() {
    const given = ofSparse();
    for (let i = 0; i < N; i++) words(slot(57), N)[i] = BigInt(r() % 100);
    return { ...given, positions: slot(57), ranks: slot(57), out: slot(58), counts: slot(59) };
}
const ofSparseBlock = () => ({ block: slot(54), block_len: sparse(r() % 3 === 0) - (r() % 7 ? 0 : 1), sparse: slot(60) });

/** Two cursors over the sequence in slot 8, in slot 90: at the first number, or anywhere. */
function cursors() {
    const size = structs.get("bitm_cursor").size, sequence = structs.get("bitm_sequence").size;
    for (let k = 0; k < 2; k++) {
        const at = slot(90) + k * size;
        arena().copyWithin(at - START, slot(8) - START, slot(8) - START + sequence);
        put(at, "bitm_cursor", { index: r() % 70, position: r() % 300, number: r() % 3000 });
        if (r() % 5) library.bitm_cursor_start(BigInt(at));
    }
    return slot(90);
}
const ofCursor = () => ({ cursor: cursors(), at_least: r() % 3200 });
const ofCursors = () => ({ cursors: cursors(), cursors_len: r() % 7 ? 1 + (r() % 2) : 0, from: r() % 3000, out: slot(91), out_len: r() % 70 });

/** Arguments that have to fit together, by export and name. */
export const NUMBERS = {
    bitm_matrix_build: () => ({
        numbers: slot(40), numbers_len: N, width: r() % 7 ? 7 : 6 + (r() % 60), quarters: 0, hints: 0, scratch: slot(41), scratch_len: 2 * N, block: slot(50), block_len: matrix(false) - (r() % 7 ? 0 : 1),
    }),
    bitm_matrix_write_level: () => ({
        numbers: slot(40), numbers_len: N, width: 7, quarters: 0, hints: 0, depth: r() % 8, scratch: slot(41), scratch_len: N - (r() % 9 ? 0 : 1), block: slot(50),
        block_len: matrix(false) - (r() % 7 ? 0 : 1),
    }),
    bitm_matrix_seal: () => ({ len: N, width: r() % 7 ? 7 : 6, quarters: 0, hints: 0, block: slot(42), block_len: matrix(true) - (r() % 7 ? 0 : 1) }),
    bitm_matrix_open: ofMatrixBlock,
    bitm_matrix_check: ofMatrixBlock,
    bitm_matrix_get: ofMatrix,
    bitm_matrix_rank: ofMatrix,
    bitm_matrix_select: ofMatrix,
    bitm_matrix_count_less: ofMatrix,
    bitm_matrix_quantile: ofMatrix,
    bitm_matrix_next_value: ofMatrix,
    bitm_matrix_previous_value: ofMatrix,
    bitm_matrix_get_list: ofMatrices,
    bitm_matrix_rank_list: ofMatrices,
    bitm_matrix_select_list: ofMatrices,
    bitm_matrix_distinct: ofRanges,
    bitm_matrix_top: ofRanges,
    bitm_matrix_intersect: ofRanges,
    bitm_cursor_start: ofCursor,
    bitm_cursor_next: ofCursor,
    bitm_cursors_intersect: ofCursors,
    bitm_cursors_union: ofCursors,
    bitm_sparse_build: () => ({ positions: slot(55), positions_len: 60, bits_len: r() % 7 ? BITS + 4000 : 9, block: slot(61), block_len: sparse(false) - (r() % 7 ? 0 : 1) }),
    bitm_sparse_open: ofSparseBlock,
    bitm_sparse_check: ofSparseBlock,
    bitm_sparse_get: ofSparse,
    bitm_sparse_rank: ofSparse,
    bitm_sparse_select: ofSparse,
    bitm_sparse_next: ofSparse,
    bitm_sparse_previous: ofSparse,
    bitm_sparse_get_list: ofSparseList,
    bitm_sparse_rank_list: ofSparseList,
    bitm_sparse_select_list: ofSparseList,
    bitm_index_block_build: () => ({ words: slot(0), words_len: N, bits_len: BITS, block: slot(53), block_len: blockOf("index", false) - (r() % 7 ? 0 : 1) }),
    bitm_index_block_open: ofBlockOf("index"),
    bitm_index_block_check: ofBlockOf("index"),
    bitm_sequence_block_build: () => ({ items: slot(14), items_len: 60, block: slot(53), block_len: blockOf("sequence", false) - (r() % 7 ? 0 : 1) }),
    bitm_sequence_block_open: ofBlockOf("sequence"),
    bitm_sequence_block_check: ofBlockOf("sequence"),
    bitm_block_extended_size: ofSections,
    bitm_block_extend: ofSections,
    bitm_block_section: ofSections,
    bitm_block_check: ofSections,
};
