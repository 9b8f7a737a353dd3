// A citation in the forms that programs for bibliographies read.

// An item has a name of the register, what is cited, the edition of a journal, sources, an address
// and the time at which it was seen.
const dayOf = ({seen}) => [seen.getFullYear(), seen.getMonth() + 1, seen.getDate()];
const written = (day, sign) => day.map((part) => String(part).padStart(2, "0")).join(sign);
const SIGNS = {"\\": "\\textbackslash{}", "~": "\\textasciitilde{}", "^": "\\textasciicircum{}"};

// A text in which TeX finds no command.
const tex = (text) => text.replace(/[\\~^{}%&#_$]/g, (sign) => SIGNS[sign] ?? `\\${sign}`);

export function bibtex(item) {
    const fields = {title: `{${tex(item.what)}}`, howpublished: `${tex(item.name)}, `
        + tex(item.version), note: tex(item.sources), url: item.address,
        urldate: written(dayOf(item), "-")};
    const lines = Object.entries(fields).filter(([, text]) => text)
        .map(([name, text]) => `  ${name} = {${text}},\n`);
    return `@misc{oldstyle-${keyOf(item)},\n${lines.join("")}}\n`;
}

export function ris(item) {
    const lines = [["TY", "ELEC"], ["TI", item.what], ["T2", item.name], ["ET", item.version],
        ["N1", item.sources], ["UR", item.address], ["Y2", written(dayOf(item), "/")], ["ER", ""]];
    return lines.filter(([tag, text]) => text || tag === "ER")
        .map(([tag, text]) => `${tag}  - ${text}\r\n`).join("");
}

export function csl(item) {
    const entry = {"id": `oldstyle-${keyOf(item)}`, "type": "webpage", "title": item.what,
        "container-title": item.name, "version": item.version, "URL": item.address,
        "accessed": {"date-parts": [dayOf(item)]}};
    if (item.sources) entry.note = item.sources;
    return `${JSON.stringify([entry], null, 2)}\n`;
}

// A word for an item that is another one for another address.
function keyOf({address}) {
    const {pathname, search} = new URL(address);
    return decodeURIComponent(pathname + search).replace(/[^A-Za-z0-9]+/g, "-")
        .replace(/^-|-$/g, "").toLowerCase();
}
