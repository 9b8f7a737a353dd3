// CSV in pieces: records, separators and fields.
import assert from "node:assert/strict";
import test from "node:test";
import {Records, fieldsOf, lastField, recordOf, separatorOf} from "./csv.js";

const TABLE = 'a,b\n1,"x\ny"\n2,"say ""z"""\n3,\n';
const RECORDS = ["a,b", '1,"x\ny"', '2,"say ""z"""', "3,"];

test("a table that is cut anywhere has the same records", () => {
    for (let first = 0; first <= TABLE.length; first += 1) {
        for (let second = first; second <= TABLE.length; second += 1) {
            const records = new Records();
            const pieces = [TABLE.slice(0, first), TABLE.slice(first, second), TABLE.slice(second)];
            assert.deepEqual(pieces.flatMap((piece) => records.take(piece)), RECORDS);
            assert.equal(records.rest, "");
        }
    }
});

test("what follows the last line feed is kept", () => {
    const records = new Records();
    assert.deepEqual(records.take('a\n"b\n'), ["a"]);
    assert.equal(records.rest, '"b\n');
    assert.deepEqual(records.take('c"\n'), ['"b\nc"']);
});

test("the separator is the first one outside quotes", () => {
    assert.equal(separatorOf("a;b,c"), ";");
    assert.equal(separatorOf('"a,b";c'), ";");
    assert.equal(separatorOf("a\tb"), "\t");
    assert.equal(separatorOf("alone"), ",");
});

test("fields become the record that they come from", () => {
    for (const fields of [["a", "b"], ["", ""], ["x,y", 'say "z"', "1\n2"], ["\r"], ["a;b", ""]]) {
        for (const separator of [",", ";", "\t"]) {
            const record = recordOf(fields, separator);
            assert.deepEqual(fieldsOf(record, separator), fields);
            assert.equal(lastField(record, separator).replaceAll('""', '"'), fields.at(-1));
        }
    }
    assert.equal(recordOf(["a", "b c"], ","), "a,b c");
});
