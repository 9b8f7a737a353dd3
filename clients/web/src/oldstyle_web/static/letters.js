// A table of letters: sends it, shows its rows as they come, has them corrected, and saves them.
import {Records, fieldsOf, lastField, separatorOf} from "./csv.js";
import {_} from "./messages.js";
import {Corrections} from "./corrections.js";
import {Sheet} from "./sheet.js";

const MARK = "\u001e";
const FIRST = ["remark", "dual", "weekday_found", "earliest", "latest", "kind"];
const WORK = 12;
const WORKBOOK = /\.(xlsx|ods)$/i;
const named = (id) => document.getElementById(id);
const form = named("letters");
const sheet = new Sheet(named("view"), named("head"), named("rows"),
    (row) => corrections.begin(row),
    (row) => corrections.undo(row));
const corrections = new Corrections(sheet, form, announce, countRemarks);
// The run of the table that is read, or of the one whose rows are shown.
let run = null;
let isSaved = true;

function announce(sentence) { named("status").textContent = sentence; }

function fault(sentence) { named("fault").textContent = sentence; }

const number = (count) => count.toLocaleString(document.documentElement.lang);

// How many lines a file has, for the bar of progress.
async function linesOf(file) {
    let count = 0;
    const reader = file.stream().getReader();
    for (let piece; !(piece = await reader.read()).done;) {
        for (let at = piece.value.indexOf(10); at >= 0; at = piece.value.indexOf(10, at + 1)) {
            count += 1;
        }
    }
    return count;
}

const isKept = () => isSaved && !sheet.editing.size;

async function send(event) {
    event.preventDefault();
    const chosen = named("table").files[0];
    const pasted = named("pasted").value;
    const file = chosen ?? new File([pasted], "pasted.csv");
    if (!chosen && !pasted.trim()) {
        return fault(_("Choose a table first, drop one on the page, or paste its rows."));
    }
    if (chosen && pasted.trim()) {
        return fault(_("A table is chosen and rows are pasted: remove one of the two."));
    }
    const most = Number(form.dataset.most);
    if (file.size > most) {
        return fault(_("The table has %(size)s bytes, and %(most)s are the most that is taken "
            + "here. Send it in parts, or use oldstyle letters.",
        {size: number(file.size), most: number(most)}));
    }
    if (!isKept() && !window.confirm(
        _("Rows that you corrected are not saved. Discard them?"))) {
        return null;
    }
    const mine = begin(file);
    const report = await read(file, mine);
    if (mine !== run) return null;
    finish();
    fault(report);
    return null;
}

// Reads a table. Returns the report of how it ended, if it did not end well.
async function read(file, {stopping, words}) {
    const {signal} = stopping;
    try {
        named("progress").removeAttribute("value");
        const lines = await linesOf(file);
        const reply = await fetch(form.action, {method: "POST", body: words, signal,
            headers: {Accept: "application/json"}});
        if (!reply.ok) return sentenceOf((await reply.json()).message);
        return await take(reply.body.getReader(), Math.max(1, lines - 1), signal);
    } catch (why) {
        if (why.name === "NotReadableError") return _("The file can’t be read: choose it again.");
        return why.name === "AbortError" ? _("It was stopped: the rows that came are here.")
            : _("The connection ended before the table did. Send it again.");
    }
}

function begin(file) {
    run?.stopping.abort();
    const words = new FormData(form);
    words.set("report", "1");
    words.set("table", file);
    words.delete("pasted");
    if (WORKBOOK.test(file.name)) words.set("separator", "comma");
    run = {name: file.name, words, stopping: new AbortController(), mark: ""};
    fault("");
    announce(_("The table is being sent."));
    sheet.clear();
    corrections.keep(words);
    isSaved = true;
    named("running").hidden = false;
    named("result").hidden = true;
    return run;
}

// Takes the rows as they come, and lets the browser work between them.
async function take(reader, total, signal) {
    const decoder = new TextDecoder("utf-8", {ignoreBOM: true});
    const records = new Records();
    let since = performance.now();
    for (let piece; !(piece = await reader.read()).done;) {
        add(records.take(decoder.decode(piece.value, {stream: true})));
        if (performance.now() - since > WORK) {
            progress(total);
            await new Promise((resume) => { setTimeout(resume); });
            signal.throwIfAborted();
            since = performance.now();
        }
    }
    const at = records.rest.lastIndexOf(MARK);
    if (at < 0) throw new Error("the end is missing");
    const end = JSON.parse(records.rest.slice(at + 1));
    return end.status === 0 ? "" : sentenceOf(end.message);
}

function add(records) {
    if (!sheet.columns.length && records.length) beginTable(records.shift());
    for (const record of records) {
        sheet.records.push(record);
        sheet.remarks.push(lastField(record, sheet.separator));
    }
}

function beginTable(first) {
    const header = first.replace(/^\uFEFF/, "");
    run.mark = first.slice(0, first.length - header.length);
    const separators = {comma: ",", semicolon: ";", tab: "\t"};
    const separator = separators[run.words.get("separator")] ?? separatorOf(header);
    sheet.begin(fieldsOf(header, separator), [], separator);
    named("result").hidden = false;
}

function progress(total) {
    const bar = named("progress");
    bar.value = Math.min(1, sheet.records.length / total);
    const tenth = Math.floor(bar.value * 10);
    if (tenth !== progress.last) {
        announce(_("%(count)s rows are answered.", {count: number(sheet.records.length)}));
    }
    progress.last = tenth;
    if (!sheet.visible.length) setColumns();
    sheet.later();
}

// The report of a table, as a sentence of this page.
function sentenceOf(report) {
    const sentence = report.replace(/\.$/, "");
    return `${sentence.replace(/ or rename it$/, " or rename it, and send the table again")}.`;
}

function finish() {
    named("running").hidden = true;
    if (!sheet.columns.length) {
        announce("");
        return;
    }
    setColumns();
    countRemarks();
    announce(summary());
}

function summary() {
    const remarks = sheet.remarks.filter((remark) => remark).length;
    const count = sheet.records.length;
    const parts = {count: number(count), remarks: number(remarks)};
    return count === 1 ? _("1 row, %(remarks)s with a remark.", parts)
        : _("%(count)s rows, %(remarks)s with a remark.", parts);
}

// Counts the remarks again and offers each of them.
function countRemarks(row = null) {
    if (row !== null) isSaved = false;
    const counts = new Map();
    for (const remark of sheet.remarks) {
        for (const part of remark ? remark.split("; ") : []) {
            counts.set(part, (counts.get(part) ?? 0) + 1);
        }
    }
    const list = named("remark");
    const chosen = list.value;
    const remarked = sheet.remarks.filter((remark) => remark).length;
    const choices = [["", _("all rows"), sheet.records.length],
        ["*", _("rows with a remark"), remarked],
        ...[...counts].sort().map(([remark, count]) => [remark, remark, count])];
    list.replaceChildren(...choices.map(([value, text, count]) =>
        new Option(`${text} (${number(count)})`, value)));
    list.value = choices.some(([value]) => value === chosen) ? chosen : "";
}

function choose() {
    const choice = named("remark").value;
    if (!choice) return sheet.choose(null);
    const has = choice === "*" ? (remark) => remark
        : (remark) => remark.split("; ").includes(choice);
    const chosen = [];
    sheet.remarks.forEach((remark, row) => {
        if (has(remark) || sheet.editing.has(row)) chosen.push(row);
    });
    return sheet.choose(chosen);
}

function setColumns() {
    const all = sheet.columns.map((_, place) => place);
    const read = corrections.places();
    const first = FIRST.map((name) => sheet.columns.lastIndexOf(name));
    const visible = named("wide").checked ? all : [...read, ...first];
    sheet.show(visible);
}

function save() {
    const [open] = sheet.editing.keys();
    if (open !== undefined) {
        announce(_("Row %(row)s is not asked yet: press its “Ask” or “Cancel”, then save.",
            {row: number(open + 1)}));
        return;
    }
    if (!named("running").hidden) {
        announce(_("The table is still being read: wait for its end, or stop it, then save."));
        return;
    }
    const parts = [`${run.mark}${corrections.header()}\n`];
    for (let at = 0; at < sheet.records.length; at += 5000) {
        parts.push(`${sheet.records.slice(at, at + 5000).join("\n")}\n`);
    }
    const link = document.createElement("a");
    link.href = URL.createObjectURL(new Blob(parts, {type: "text/csv"}));
    link.download = `${run.name.replace(/\.\w+$/, "")}-found.csv`;
    link.click();
    setTimeout(() => URL.revokeObjectURL(link.href), 60_000);
    isSaved = true;
}

// The names of a table's columns, to choose from.
async function offerColumns() {
    const file = named("table").files[0] ?? new File([named("pasted").value], "pasted.csv");
    if (WORKBOOK.test(file.name)) return;
    const text = (await file.slice(0, 65_536).text()).replace(/^\uFEFF/, "").trimStart();
    const header = text.split(/\r\n|\n|\r/)[0];
    const names = fieldsOf(header, separatorOf(header)).slice(0, 60);
    named("columns").replaceChildren(...names.map((name) => new Option(name, name)));
}

// Returns whether files are dragged to the page: texts go into its fields, and a file over another
// field of files goes there.
function bringsTable(event) {
    const isOther = event.target.matches?.("input[type=file]") && event.target.id !== "table";
    return event.dataTransfer?.types.includes("Files") && !isOther;
}

function drop(event) {
    named("drop").classList.remove("over");
    if (!bringsTable(event)) return;
    event.preventDefault();
    if (event.dataTransfer.files.length !== 1) return fault(_("Drop one table at a time."));
    named("table").files = event.dataTransfer.files;
    offerColumns();
    return form.requestSubmit();
}

function over(event) {
    if (bringsTable(event)) event.preventDefault();
    named("drop").classList.toggle("over", event.type === "dragover" && bringsTable(event));
}

form.addEventListener("submit", send);
named("table").addEventListener("change", offerColumns);
named("pasted").addEventListener("change", offerColumns);
named("stop").addEventListener("click", () => run.stopping.abort());
named("remark").addEventListener("change", choose);
named("wide").addEventListener("change", setColumns);
named("save").addEventListener("click", save);
document.addEventListener("dragover", over);
document.addEventListener("dragleave", over);
document.addEventListener("drop", drop);
window.addEventListener("beforeunload", (event) => { if (!isKept()) event.preventDefault(); });
