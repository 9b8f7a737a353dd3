// The rows of a table, of which only those that are seen are in the page.
import {fieldsOf} from "./csv.js";
import {_} from "./messages.js";

const MORE = 6;
const WIDEST = 26;
const NARROWEST = 10;
// The height that the rows have at most: a browser draws no page that is much higher.
const HIGHEST = 12_000_000;

export class Sheet {
    // Calls `correct` or `undo` with the number of the row whose button is pressed.
    constructor(view, head, body, correct, undo) {
        Object.assign(this, {view, head, body, correct, undo});
        this.table = body.parentElement;
        this.editing = new Map();
        this.clear();
        view.addEventListener("scroll", () => this.later(), {passive: true});
        view.addEventListener("focusin", () => this.later());
        new ResizeObserver(() => this.later()).observe(view);
    }

    clear() {
        this.records = [];
        this.remarks = [];
        this.chosen = null;
        // The rows that were corrected, each with the record that came.
        this.corrected = new Map();
        for (const typed of this.editing.values()) typed.asking?.abort();
        this.editing.clear();
        this.columns = [];
        this.visible = [];
        this.drawn = new Map();
        this.height = 0;
        this.body.replaceChildren();
    }

    // Begins a table: all its columns, and which of them are visible, by their places.
    begin(columns, visible, separator) {
        Object.assign(this, {columns, visible, separator});
        this.drawHead();
    }

    show(visible) {
        this.visible = visible;
        this.drawHead();
        this.redraw();
    }

    choose(chosen) {
        this.chosen = chosen;
        this.view.scrollTop = 0;
        this.redraw();
    }

    get count() {
        return this.chosen ? this.chosen.length : this.records.length;
    }

    drawHead() {
        const names = this.visible.map((place) => this.columns[place]);
        const cells = [_("Row"), "", ...names].map((name) => {
            const cell = document.createElement("th");
            cell.scope = "col";
            cell.textContent = name;
            if (!name) cell.append(hidden(_("Correct")));
            return cell;
        });
        this.head.setAttribute("aria-rowindex", 1);
        this.head.replaceChildren(...cells);
        this.setWidths(cells);
    }

    // Widths by the first rows, so that they stay while rows come and go.
    setWidths(cells) {
        const samples = this.records.slice(0, 200).map((one) => fieldsOf(one, this.separator));
        cells.forEach((cell, order) => {
            const place = this.visible[order - 2];
            const longest = Math.max(cell.textContent.length,
                ...samples.map((fields) => (fields[place] ?? "").length));
            const width = order < 2 ? 8 + 8 * order
                : Math.min(WIDEST, Math.max(NARROWEST, longest)) + 2;
            cell.style.width = `${width}ch`;
        });
        const total = cells.reduce((sum, cell) => sum + parseFloat(cell.style.width), 0);
        this.table.style.width = `${total}ch`;
    }

    later() {
        if (this.waits) return;
        this.waits = true;
        requestAnimationFrame(() => { this.waits = false; this.draw(); });
    }

    redraw() {
        this.drawn.clear();
        this.body.replaceChildren();
        this.draw();
    }

    // Draws the rows that are seen and a few more, between two rooms for the others.
    draw() {
        this.table.setAttribute("aria-rowcount", this.count + 1);
        if (!this.count) return this.body.replaceChildren();
        this.height ||= this.measure();
        const {scrollTop, clientHeight} = this.view;
        const whole = this.count * this.height;
        const high = Math.min(whole, HIGHEST);
        // If there are more rows than fit that height, a step of the scroll bar skips several.
        const scale = whole > high ? (whole - clientHeight) / (high - clientHeight) : 1;
        const at = Math.min(scrollTop * scale, Math.max(0, whole - clientHeight));
        const first = Math.max(0, Math.floor(at / this.height) - MORE);
        const seen = Math.ceil(clientHeight / this.height) + 2 * MORE;
        const last = Math.min(this.count, first + seen);
        const drawn = (last - first) * this.height;
        const top = scale === 1 ? first * this.height
            : Math.max(0, Math.min(scrollTop - at + first * this.height, high - drawn));
        const visible = new Map();
        // From the view itself, the keyboard goes to the first row that is seen, not to one above.
        const isAtView = document.activeElement === this.view;
        for (let order = first; order < last; order += 1) {
            const row = this.chosen ? this.chosen[order] : order;
            const one = this.drawn.get(row) ?? this.rowOf(row, order);
            one.inert = isAtView && order * this.height < Math.floor(at);
            visible.set(row, one);
        }
        const lost = this.body.contains(document.activeElement);
        this.place(visible, top, high - top - drawn);
        if (lost && !this.body.contains(document.activeElement)) this.view.focus();
        return null;
    }

    // Puts rows into the page, between rooms of these heights, and moves none that is there.
    place(visible, above, below) {
        for (const [row, drawn] of this.drawn) if (visible.get(row) !== drawn) drawn.remove();
        this.top ??= room();
        this.bottom ??= room();
        if (this.body.firstChild !== this.top) this.body.prepend(this.top);
        let before = this.top;
        for (const drawn of visible.values()) {
            if (before.nextSibling !== drawn) before.after(drawn);
            before = drawn;
        }
        if (before.nextSibling !== this.bottom) before.after(this.bottom);
        this.top.style.height = `${above}px`;
        this.bottom.style.height = `${Math.max(0, below)}px`;
        this.drawn = visible;
    }

    measure() {
        const row = this.rowOf(this.chosen ? this.chosen[0] : 0, 0);
        this.body.replaceChildren(row);
        const {height} = row.getBoundingClientRect();
        this.body.replaceChildren();
        this.drawn.clear();
        return height || 38;
    }

    rowOf(row, order) {
        const drawn = document.createElement("tr");
        drawn.setAttribute("aria-rowindex", order + 2);
        drawn.dataset.row = row;
        if (this.corrected.has(row)) drawn.className = "corrected";
        const number = document.createElement("th");
        number.scope = "row";
        number.textContent = (row + 1).toLocaleString(document.documentElement.lang);
        const fields = fieldsOf(this.records[row], this.separator);
        const remark = this.columns.length - 1;
        const cells = this.visible.map((place) => {
            const cell = document.createElement("td");
            cell.textContent = fields[place] ?? "";
            cell.title = fields[place] ?? "";
            if (place === remark) cell.className = "has-remark";
            return cell;
        });
        drawn.append(number, this.tools(row), ...cells);
        this.editing.get(row)?.open(drawn);
        return drawn;
    }

    tools(row) {
        const cell = document.createElement("td");
        cell.append(button(_("Correct"), _("Correct row %(row)s", {row: row + 1}),
            () => this.correct(row)));
        if (this.corrected.has(row)) {
            cell.append(button(_("Undo"), _("Undo row %(row)s", {row: row + 1}),
                () => this.undo(row)));
        }
        return cell;
    }

    // Draws one row again.
    renew(row) {
        const old = this.drawn.get(row);
        if (!old) return null;
        const drawn = this.rowOf(row, Number(old.getAttribute("aria-rowindex")) - 2);
        old.replaceWith(drawn);
        this.drawn.set(row, drawn);
        return drawn;
    }
}

export function button(name, label, press) {
    const made = document.createElement("button");
    made.type = "button";
    made.className = "plain";
    made.textContent = name;
    made.setAttribute("aria-label", label);
    made.addEventListener("click", press);
    return made;
}

function room() {
    const row = document.createElement("tr");
    row.className = "room";
    row.setAttribute("aria-hidden", "true");
    row.append(document.createElement("td"));
    return row;
}

function hidden(text) {
    const span = document.createElement("span");
    span.className = "visually-hidden";
    span.textContent = text;
    return span;
}
