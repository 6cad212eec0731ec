// Refusals in words, from the one table (web/words.json) that is made of the Rust library's own. Nothing is judged here.

// What each call is called in the table.
const CALL_WORDS = {
    definition_line: "Definition",
    definition_content: "Definition",
    index_record: "Index",
    index_file: "Index",
    index_complete: "Index",
    read_index: "ReadIndex",
    index_line: "ReadIndex",
    index_content: "ReadIndex",
    write_index_line: "WriteIndex",
    check: "Check",
    find: "Find",
    read_exact: "ReadExact",
    read_raw: "ReadRaw",
    complement: "Complement",
    reverse_complement: "Complement",
    write_record: "WriteRecord",
    write_sequence: "WriteRecord",
    read_exercise: "Exercise",
    write_exercise: "Exercise",
    score_typed: "Score",
    score_exercise: "Score",
    read_window: "ReadExact",
    needed_bytes: "ReadExact",
    read_sheet: "ReadExact",
    feed_start: "Index",
    feed_piece: "Index",
    feed_end: "Index",
    degeneracy: "Primer",
    find_primer: "Primer",
    fastq_index: "FastqIndex",
    fastq_read_index: "ReadIndex",
    fastq_write_line: "WriteIndex",
    fastq_read: "ReadExact",
    fastq_check: "FastqCheck",
};

// What is wrong and where, and the refusal's numbers: two texts.
export function refusalWords(table, { call, refusal, first, second }) {
    const number = String(refusal);
    const [words, code] = table.calls[CALL_WORDS[call] ?? call]?.[number] ?? table.any[number] ?? table.unknown;
    const values = {
        number,
        first: String(first),
        second: String(second),
        column: table.columns[String(second)] ?? table.columns["1"],
        byte: second > 0x20n && second < 0x7fn ? `'${String.fromCharCode(Number(second))}'` : String(second),
    };
    const filled = (text) => text.replace(/\{(number|first|second|column|byte)\}/g, (_, name) => values[name]);
    return [filled(words), filled(code)];
}
