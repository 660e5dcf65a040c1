import { Index, KIND as OF_BITS } from "./bit_index.js";
import { EliasFano, KIND as OF_NUMBERS } from "./elias_fano.js";
import { bytesOf, flag, optionsOf } from "./given.js";
import { openedAs } from "./in_block.js";
import { openVersion2 } from "./version2.js";

/** The bytes of a header that say the version of the format and the kind of a block. */
const VERSION = 7, KIND = 8;

/**
 * An Index or an EliasFano of the bytes of a block, as toBytes() gives them and the C library writes them, which are copied once.
 * OtherKind is thrown where they hold another structure. Unless `check` is false, all of them are looked at, and WrongTables is
 * thrown where they are not as they were written; without that, answers may be wrong, but no position is past the end or holds
 * another bit. A file of version 2 of the format is read too
 * and made a block; it has no checksum of its parts, so the check finds only what does not fit.
 */
export function open(bytes, options) {
    const own = optionsOf(options), from = bytesOf(bytes, "bytes"), isBlock = from[VERSION] === 3 || from[VERSION] === 4;
    if (isBlock && from[KIND] === 2) return openedAs(Index, OF_BITS, bytes, own);
    if (isBlock && from[KIND] === 3) return openedAs(EliasFano, OF_NUMBERS, bytes, own);
    return openVersion2(from, flag(own.check, "check", true));
}
