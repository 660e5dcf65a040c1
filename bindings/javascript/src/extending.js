// A block with one section more, as the library writes it into another piece of memory.
import { smallest } from "./core.js";
import { answerOf, called } from "./numbers.js";

/** How many words a block takes with a section of `count` items more; or minus a status. */
export function sizeWith(block, words, { role, count }) {
    return answerOf("bitm_block_extended_size", block, words, smallest(role), count);
}

/** Writes that block, of `size` words, to `to`: the status. The items stand at `items`, in items_len words. */
export function writeWith(block, words, { role, count, items, items_len }, to, size) {
    return called("bitm_block_extend", block, words, role, count, items, items_len, to, size);
}
