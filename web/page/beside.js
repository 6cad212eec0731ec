// An index beside the rows that were made of its file, for a file that is not held: the proved checker needs both whole. The rows lead to every base, and of
// FASTQ to every quality (docs/DECISIONS.md), so that an index does just where it leads to the same places. What is told is what the checker tells.
import { qualityNumbers } from "./fastq.js";
import { placeBy } from "./faults.js";
import { behind } from "./places.js";

// The first base of a record, from 1, for which two sets of numbers tell other places; 0 where they tell the same for all. Both go on by one byte from base to
// base, but for the end of a line: so they part at the first base, or at the end of a line that is not that of both.
export function firstApart(one, other, length) {
    if (length === 0n) return 0n;
    if (one.position !== other.position) return 1n;
    // how many bases lie side by side from the first on
    const run = ({ lineBases, lineWidth }) => (lineBases === lineWidth || lineBases > length ? length : lineBases);
    const [mine, theirs] = [run(one), run(other)];
    if (mine !== theirs) return (mine < theirs ? mine : theirs) + 1n;
    return mine === length || one.lineWidth === other.lineWidth ? 0n : mine + 1n;
}

// Whether rows say the same as others: two functions of the numbers of two rows, for the names and for the numbers that they have.
function comparing(proved, rows, others) {
    const read = ({ names, table, qualities }) => ({
        names: proved.bytes(names), spans: proved.spans(table), numbers: proved.halves(table), qualities: qualities && proved.halves(qualities),
    });
    const [one, other] = [read(rows), read(others)];
    const isSameName = (row, rowToo) => {
        const [from, length] = one.spans(row);
        const [fromToo, lengthToo] = other.spans(rowToo);
        if (length !== lengthToo) return false;
        for (let k = 0; k < length; k++) if (one.names[from + k] !== other.names[fromToo + k]) return false;
        return true;
    };
    const areSameNumbers = (row, rowToo) => {
        for (let k = 4; k < 12; k++) if (one.numbers[16 * row + k] !== other.numbers[16 * rowToo + k]) return false;
        return [0, 1].every((k) => one.qualities?.[2 * row + k] === other.qualities?.[2 * rowToo + k]);
    };
    return [isSameName, areSameNumbers];
}

// What the checker says of an index, by the rows of its file. `rowsIn` reads rows from some lines: what was told, and the rows. They are read some at a time, so
// that no second table is held; `size` bytes, and as many more as their last line has. Of 23, `place` is where the base lies, or the quality.
export function checkedBeside(proved, own, index, rowsIn, size = 1 << 22) {
    const told = (refusal, first, second = 0n, more = {}) => ({ call: own.qualities ? "fastq_check" : "check", refusal, first: BigInt(first), second, ...more });
    // of the bases, and then of the qualities
    const numbersOf = (rows, row) => [proved.row(rows.table, row), ...(rows.qualities ? [qualityNumbers(proved, rows, row)] : [])];
    let row = 0;
    for (let [at, next] = [0, 0]; at < index.length; at = next) {
        next = behind(proved.bytes(index), Math.min(at + size, index.length) - 1);
        const refused = proved.using(() => {
            const [read, given] = rowsIn(index.part(at, next - at));
            const [isSameName, areSameNumbers] = comparing(proved, own, given);
            for (let k = 0; k < given.count; k++, row++) {
                if (row === own.count) return told(20n, row);
                if (!isSameName(row, k)) return told(21n, row + 1);
                if (areSameNumbers(row, k)) continue;
                const [mine, theirs] = [numbersOf(own, row), numbersOf(given, k)];
                if (mine[0].length !== theirs[0].length) return told(22n, row + 1);
                for (const [part, numbers] of mine.entries()) {
                    const base = firstApart(numbers, theirs[part], numbers.length);
                    if (base > 0n) return told(23n, row + 1, base, { place: placeBy(numbers, base) });
                }
            }
            if (read.refusal === 0n) return undefined;
            return row === own.count ? told(20n, row) : told(read.refusal, row + 1, read.second);
        });
        if (refused) return refused;
    }
    return row < own.count ? told(19n, row + 1) : told(0n, 0);
}
