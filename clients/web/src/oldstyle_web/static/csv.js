// CSV as the program writes it: cuts pieces of it into records, and a record into its fields.
const SEPARATORS = [",", ";", "\t"];

// Cuts a text that comes in pieces. A line feed ends a record unless a quote is open.
export class Records {
    constructor() {
        this.rest = "";
    }

    // The whole records that the next piece ends.
    take(piece) {
        const text = this.rest + piece;
        const records = [];
        let start = 0;
        let open = false;
        let quote = text.indexOf('"');
        for (let end = text.indexOf("\n"); end >= 0; end = text.indexOf("\n", end + 1)) {
            while (quote >= 0 && quote < end) {
                open = !open;
                quote = text.indexOf('"', quote + 1);
            }
            if (open) continue;
            records.push(text.slice(start, end));
            start = end + 1;
        }
        this.rest = text.slice(start);
        return records;
    }
}

// The separator of a header: the first one outside quotes.
export function separatorOf(header) {
    let open = false;
    for (const sign of header) {
        if (sign === '"') open = !open;
        else if (!open && SEPARATORS.includes(sign)) return sign;
    }
    return ",";
}

export function fieldsOf(record, separator) {
    if (!record.includes('"')) return record.split(separator);
    const fields = [];
    let field = "";
    let open = false;
    for (let at = 0; at < record.length; at += 1) {
        const sign = record[at];
        if (sign === '"' && open && record[at + 1] === '"') {
            field += sign;
            at += 1;
        } else if (sign === '"') {
            open = !open;
        } else if (sign === separator && !open) {
            fields.push(field);
            field = "";
        } else {
            field += sign;
        }
    }
    return [...fields, field];
}

export function recordOf(fields, separator) {
    return fields.map((field) => quoted(field, separator)).join(separator);
}

function quoted(field, separator) {
    const needs = [separator, '"', "\n", "\r"].some((sign) => field.includes(sign));
    return needs ? `"${field.replaceAll('"', '""')}"` : field;
}

// The last field of a record, which is its remark and has no quote in it.
export function lastField(record, separator) {
    if (record.endsWith('"')) {
        return record.slice(record.lastIndexOf('"', record.length - 2) + 1, -1);
    }
    return record.slice(record.lastIndexOf(separator) + 1);
}
