// What is free of a memory, in units: the holes between what is taken, no two of which touch. A hole is found by where it
// begins, by where it ends, and by its size, in lists of the holes of a class; so neither take() nor give() takes longer the
// more holes there are. Two-level segregated fit (Masmano, Ripoll, Crespo and Real, 2004).

/** Classes are ranges of sizes: each size below 8 is one, and each doubling from there on has 8 of equal width. */
const FINE = 8;
/** The largest size that is looked for: one more would not be a whole number of 31 bits. */
const MOST = 2 ** 31 - 1;
/** How many holes of the class of a size are looked at, of which some may be smaller, before a greater class is taken. */
const TRIES = 4;

const lowest = bits => 31 - Math.clz32(bits & -bits);

function classOf(units) {
    if (units < FINE) return units;
    const doubling = 28 - Math.clz32(units);
    return FINE * doubling + (units >> doubling);
}

/**
 * The holes by where they begin, or end. A place without a hole has undefined until the map is made anew: to delete a key of a
 * Map and to set it again takes V8 the longer the more often that was done.
 */
class Places {
    #map = new Map();
    size = 0;

    get(place) { return this.#map.get(place); }

    add(place, hole) {
        this.#map.set(place, hole);
        this.size++;
    }

    remove(place) {
        this.#map.set(place, undefined);
        this.size--;
        if (this.#map.size > 2 * this.size + 1024) this.#map = new Map([...this.#map].filter(it => it[1]));
    }
}

export class Heap {
    #starts = new Places();
    #ends = new Places();
    #lists = []; // by class: its holes, { from, units, k }, where k is the index in the list
    #rows = 0; // bit r is 1 where one of the 8 classes from 8 r on has a hole
    #columns = new Uint8Array(32); // for each row a bit for each of its classes

    /** How many units are free. */
    units = 0;

    /** How many holes there are. */
    get holes() { return this.#starts.size; }

    /** How many units are free up to the given end. */
    endingAt(end) { return this.#ends.get(end)?.units ?? 0; }

    /** Makes units free, of which none is free yet, and joins them with what is free beside them. */
    give(from, units) {
        const before = this.#ends.get(from), after = this.#starts.get(from + units);
        if (before) this.#remove(before);
        if (after) this.#remove(after);
        this.#add(before?.from ?? from, (before?.units ?? 0) + units + (after?.units ?? 0));
    }

    /**
     * Takes that many units which follow one another: where they begin, or undefined. They are found wherever a hole is an
     * eighth larger; where `all` is true, wherever a hole is as large, after a look at each one of nearly that size.
     */
    take(units, all = false) {
        if (units > MOST) return undefined;
        const hole = this.#ofClass(classOf(units), units, all) ?? this.#ofGreater(classOf(units));
        if (!hole) return undefined;
        this.#remove(hole);
        if (hole.units > units) this.#add(hole.from + units, hole.units - units);
        return hole.from;
    }

    #ofClass(its, units, all) {
        const list = this.#lists[its] ?? [], end = all ? 0 : Math.max(list.length - TRIES, 0);
        for (let k = list.length - 1; k >= end; k--) if (list[k].units >= units) return list[k];
        return undefined;
    }

    /** A hole of the least class above this one that has any: each is large enough for what is of this class. */
    #ofGreater(its) {
        const next = its + 1, row = next >> 3, here = this.#columns[row] & (-1 << (next & 7));
        const rows = here ? 1 << row : row < 31 ? this.#rows & (-2 << row) : 0;
        if (!rows) return undefined;
        const found = lowest(rows);
        return this.#lists[FINE * found + lowest(here || this.#columns[found])].at(-1);
    }

    #add(from, units) {
        const its = classOf(units), list = (this.#lists[its] ??= []), hole = { from, units, k: list.length };
        list.push(hole);
        this.#starts.add(from, hole);
        this.#ends.add(from + units, hole);
        this.#rows |= 1 << (its >> 3);
        this.#columns[its >> 3] |= 1 << (its & 7);
        this.units += units;
    }

    #remove(hole) {
        const its = classOf(hole.units), list = this.#lists[its], last = list.pop();
        if (last !== hole) {
            list[hole.k] = last;
            last.k = hole.k;
        }
        this.#starts.remove(hole.from);
        this.#ends.remove(hole.from + hole.units);
        this.units -= hole.units;
        if (list.length > 0) return;
        this.#columns[its >> 3] &= ~(1 << (its & 7));
        if (this.#columns[its >> 3] === 0) this.#rows &= ~(1 << (its >> 3));
    }
}
