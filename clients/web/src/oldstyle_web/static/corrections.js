// Corrections: a row's place, date and weekday are changed in the row, which is asked again alone.
import {Records, fieldsOf, lastField, recordOf} from "./csv.js";
import {_} from "./messages.js";
import {button} from "./sheet.js";

const ADDED = 12;
const MARK = "\u001e";
const ROLES = ["place", "date", "weekday", "year", "month", "day"];

export class Corrections {
    constructor(sheet, form, announce, countRemarks) {
        Object.assign(this, {sheet, form, announce, countRemarks});
        this.words = new FormData();
    }

    // Keeps the words of the form with which the table was sent.
    keep(words) {
        this.words = words;
    }

    header() {
        return recordOf(this.sheet.columns, this.sheet.separator);
    }

    // The places of the columns that are read, in the order in which they are asked for.
    places() {
        const own = this.sheet.columns.slice(0, -ADDED);
        const inParts = Boolean(this.words.get("column_year"));
        const names = ROLES.filter((role) => (inParts ? role !== "date" : role !== "year"
            && role !== "month" && role !== "day"))
            .map((role) => this.words.get(`column_${role}`)
                || (["place", "date", "weekday"].includes(role) ? role : ""));
        return names.filter((name) => name).map((name) => own.indexOf(name))
            .filter((place) => place >= 0);
    }

    // Begins to correct a row: its fields are kept outside the row as they are typed, so that they
    // are still there when the row is drawn again.
    begin(row) {
        const {sheet} = this;
        const fields = fieldsOf(sheet.records[row], sheet.separator).slice(0, -ADDED);
        const typed = {fields, asking: null, open: (drawn) => this.open(row, drawn, typed)};
        sheet.editing.set(row, typed);
        sheet.renew(row)?.querySelector("input")?.focus();
    }

    // Puts fields into a row that is drawn.
    open(row, drawn, typed) {
        const cells = [...drawn.children].slice(2);
        for (const place of this.places()) {
            const cell = cells[this.sheet.visible.indexOf(place)];
            if (cell) cell.replaceChildren(this.input(row, place, typed));
        }
        drawn.children[1].replaceChildren(
            button(_("Ask"), _("Ask again for row %(row)s", {row: row + 1}),
                () => this.ask(row)),
            button(_("Cancel"), _("Leave row %(row)s as it was", {row: row + 1}),
                () => this.leave(row)));
        drawn.addEventListener("keydown", (event) => {
            if (event.key === "Enter" && event.target.matches("input")) {
                event.preventDefault();
                this.ask(row);
            } else if (event.key === "Escape") {
                this.leave(row);
            }
        });
    }

    input(row, place, typed) {
        const input = document.createElement("input");
        input.type = "text";
        input.value = typed.fields[place] ?? "";
        input.setAttribute("aria-label", _("%(column)s of row %(row)s",
            {column: this.sheet.columns[place], row: row + 1}));
        input.addEventListener("input", () => {
            typed.asking?.abort();
            typed.fields[place] = input.value;
        });
        return input;
    }

    leave(row) {
        const {sheet} = this;
        sheet.editing.get(row)?.asking?.abort();
        sheet.editing.delete(row);
        const isHere = sheet.drawn.get(row)?.contains(document.activeElement);
        const drawn = sheet.renew(row);
        if (isHere) drawn?.querySelector("button").focus();
    }

    // Asks for the row alone, as a table of one row. A reply is thrown away if something was typed
    // or asked since, or another table was read.
    async ask(row) {
        const {separator, columns, editing} = this.sheet;
        const typed = editing.get(row);
        const own = recordOf(columns.slice(0, -ADDED), separator);
        const body = new FormData();
        for (const [name, word] of this.words) body.append(name, word);
        body.set("table", new Blob([`${own}\n${recordOf(typed.fields, separator)}\n`]), "row.csv");
        typed.asking?.abort();
        const asking = new AbortController();
        typed.asking = asking;
        const isOvertaken = () => asking.signal.aborted || editing.get(row) !== typed;
        try {
            const reply = await fetch(this.form.action, {method: "POST", body,
                signal: asking.signal, headers: {Accept: "application/json"}});
            const text = await reply.text();
            if (isOvertaken()) return;
            if (!reply.ok) throw new Error(JSON.parse(text).message);
            this.take(row, text.slice(0, text.lastIndexOf(MARK)));
        } catch (why) {
            if (!isOvertaken()) {
                this.announce(_("Row %(row)s was not asked: %(why)s",
                    {row: row + 1, why: why.message}));
            }
        }
    }

    take(row, text) {
        const [, record] = new Records().take(text);
        if (record === undefined) throw new Error(_("the row has one quote or line end too many"));
        const {sheet} = this;
        if (!sheet.corrected.has(row)) sheet.corrected.set(row, sheet.records[row]);
        this.put(row, record);
        const remark = sheet.remarks[row] || _("no remark now");
        this.announce(_("Row %(row)s: %(remark)s.", {row: row + 1, remark}));
    }

    // Puts back the record that came.
    undo(row) {
        const record = this.sheet.corrected.get(row);
        this.sheet.corrected.delete(row);
        this.put(row, record);
        this.announce(_("Row %(row)s is as it was sent.", {row: row + 1}));
    }

    put(row, record) {
        this.sheet.records[row] = record;
        this.sheet.remarks[row] = lastField(record, this.sheet.separator);
        this.leave(row);
        this.countRemarks(row);
    }
}
