// Corrections of rows: which reply counts, and what stays without one.
import assert from "node:assert/strict";
import test from "node:test";

// What the scripts find in a browser, as far as a row that is not seen needs it.
globalThis.document = {documentElement: {lang: "en", dataset: {}}, activeElement: null};
const {Corrections} = await import("./corrections.js");

const ADDED = ["days", "gregorian", "julian", "dual", "weekday_found", "jdn", "earliest", "latest",
    "kind", "edtf", "edition", "remark"];
const record = (date, remark) => ["GB", date, "letter", ...ADDED.slice(0, -1), remark].join(",");

// A sheet with two rows outside the page, its corrections, and the questions that they ask.
function opened(words = {}) {
    const sheet = {separator: ",", columns: ["place", "date", "note", ...ADDED], visible: [],
        records: [record("1 May 1700", "skipped"), record("2 May 1700", "")],
        remarks: ["skipped", ""], editing: new Map(), corrected: new Map(), drawn: new Map(),
        renew: () => null};
    const announced = [];
    const questions = [];
    globalThis.fetch = (address, {body, signal}) => new Promise((answer, refuse) => {
        signal.addEventListener("abort", () => refuse(new DOMException("", "AbortError")));
        questions.push({body, signal, answer: (text, ok = true) => answer({ok, text: () => text})});
    });
    const corrections = new Corrections(sheet, {action: "/letters"}, (text) => announced.push(text), () => {});
    const form = new FormData();
    for (const [name, word] of Object.entries(words)) form.set(name, word);
    corrections.keep(form);
    return {sheet, corrections, announced, questions};
}

const header = (date) => `place,date,note,${ADDED.join(",")}\n${date}\n\u001e{"status":0}`;

test("a row is asked alone, and its answer takes its place", async () => {
    const {sheet, corrections, announced, questions} = opened({order: "dmy"});
    corrections.begin(0);
    sheet.editing.get(0).fields[1] = "15 May, 1700";
    const asking = corrections.ask(0);
    assert.equal(questions[0].body.get("order"), "dmy");
    assert.equal(await questions[0].body.get("table").text(),
        'place,date,note\nGB,"15 May, 1700",letter\n');
    questions[0].answer(header(record('"15 May, 1700"', "")));
    await asking;
    assert.equal(sheet.records[0], record('"15 May, 1700"', ""));
    assert.deepEqual(announced, ["Row 1: no remark now."]);
    assert.equal(sheet.editing.size, 0);
    corrections.undo(0);
    assert.equal(sheet.records[0], record("1 May 1700", "skipped"));
    assert.equal(sheet.remarks[0], "skipped");
});

test("of two questions for a row the later one counts", async () => {
    const {sheet, corrections, questions} = opened();
    corrections.begin(0);
    const first = corrections.ask(0);
    const second = corrections.ask(0);
    assert.ok(questions[0].signal.aborted);
    questions[1].answer(header(record("2 June 1701", "")));
    questions[0].answer(header(record("1 May 1700", "")));
    await Promise.all([first, second]);
    assert.equal(sheet.records[0], record("2 June 1701", ""));
});

test("an answer to a row that was left, or of a table that is gone, is thrown away", async () => {
    const {sheet, corrections, announced, questions} = opened();
    for (const leave of [() => corrections.leave(0), () => sheet.editing.clear()]) {
        corrections.begin(0);
        const asking = corrections.ask(0);
        leave();
        questions.at(-1).answer(header(record("3 May 1700", "")));
        await asking;
        assert.equal(sheet.records[0], record("1 May 1700", "skipped"));
    }
    assert.deepEqual(announced, []);
});

test("a row that can't be asked stays in edit, and says why", async () => {
    const {sheet, corrections, announced, questions} = opened();
    corrections.begin(0);
    const asking = corrections.ask(0);
    questions[0].answer('{"message":"It is busy."}', false);
    await asking;
    assert.deepEqual(announced, ["Row 1 was not asked: It is busy."]);
    assert.ok(sheet.editing.has(0));
});

test("the columns that are read are those of the form, or the usual ones", () => {
    assert.deepEqual(opened().corrections.places(), [0, 1]);
    assert.deepEqual(opened({column_date: "note"}).corrections.places(), [0, 2]);
    assert.deepEqual(opened({column_year: "note", column_day: "date"}).corrections.places(), [0, 2, 1]);
});
